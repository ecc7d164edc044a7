//! Links `libkettlefrost.a` from the folder named by `KETTLEFROST_LIB`, or from
//! where the repository builds it.

use std::env;
use std::path::PathBuf;

fn main() {
    let package = PathBuf::from(env::var_os("CARGO_MANIFEST_DIR").expect("set by cargo"));
    let folder = match env::var_os("KETTLEFROST_LIB") {
        Some(folder) => package.join(folder),
        None => package.join("../../target/staticlib"),
    };
    let file = folder.join("libkettlefrost.a");
    if !file.exists() {
        let file = file.display();
        println!("cargo:warning=there is no {file}: see KETTLEFROST_LIB in the documentation");
    }
    println!("cargo:rustc-link-search=native={}", folder.display());
    println!("cargo:rustc-link-lib=static=kettlefrost");
    println!("cargo:rerun-if-env-changed=KETTLEFROST_LIB");
    println!("cargo:rerun-if-changed={}", file.display());
}
