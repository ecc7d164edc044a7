#!/bin/sh
# Runs the example of each language and holds what it prints to examples/w6.txt. The library has to be made: target/staticlib/libkettlefrost.a and .so (make examples does so).
set -eu
cd "$(dirname "$0")/.."
libraries=$PWD/target/staticlib
out=target/examples
mkdir -p "$out"
languages=

# example LANGUAGE COMMAND..
example() {
    language=$1
    shift
    "$@" >"$out/$language.txt"
    diff examples/w6.txt "$out/$language.txt" || {
        echo "examples: $language prints something else"
        exit 1
    }
    languages="$languages $language"
}

"${CC:-cc}" -std=c99 -Wall -Wextra -Wpedantic -Werror -O2 -I include examples/c/w6.c "$libraries/libkettlefrost.a" -o "$out/w6"
example C "$out/w6"

example Rust cargo run --example w6 --manifest-path bindings/rust/Cargo.toml --release --offline --quiet
example Python env KETTLEFROST_LIBRARY="$libraries/libkettlefrost.so" PYTHONPATH=bindings/python python3 -B examples/python/w6.py

cat examples/w6.txt
echo "examples: printed alike by$languages"
