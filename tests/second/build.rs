//! Compiles the floor of the benchmark.

use std::env;
use std::path::PathBuf;
use std::process::Command;

fn main() {
    let package = PathBuf::from(env::var_os("CARGO_MANIFEST_DIR").expect("set by cargo"));
    let source = package.join("floor/floor.c");
    let object = PathBuf::from(env::var_os("OUT_DIR").expect("set by cargo")).join("floor.o");
    let mut compiler = Command::new("cc");
    compiler.args(["-std=c11", "-O3", "-Wall", "-Wextra", "-c", "-o"]).arg(&object).arg(&source);
    compiler.arg("-I").arg(package.join("../../include"));
    let status = compiler.status().expect("cc is installed, as it links what rustc compiles");
    assert!(status.success(), "{} is not compiled", source.display());
    println!("cargo:rustc-link-arg-bin=bench={}", object.display());
    println!("cargo:rerun-if-changed={}", source.display());
}
