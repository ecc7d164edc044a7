#!/bin/sh
# The layout of the crates, and the layout and the linters of what is no Rattle: Rust, C, C++, shell and Python. A warning is an error.
set -eu
cd "$(dirname "$0")/.."
. tests/need.sh
rt=${RT:-rt}
work=$(mktemp -d)
trap 'rm -rf "$work"' EXIT
checks=0

fail() {
    echo "lint: $*"
    exit 1
}

# passes NAME COMMAND..: one check
passes() {
    name=$1
    shift
    "$@" || fail "failed: $name"
    checks=$((checks + 1))
}

# compiles COMPILER FILE: no warning
compiles() {
    "$@" -I include -fsyntax-only -Wall -Wextra -Wpedantic -Werror
}

# laid_out CRATE: rt fmt finds nothing to change, in a copy
laid_out() {
    mkdir "$work/copy"
    for part in src specs proofs; do
        if [ -d "$1/$part" ]; then cp -r "$1/$part" "$work/copy"; fi
    done
    (cd "$work/copy" && "$rt" fmt) >"$work/formatted" 2>&1 || echo "$1: rt fmt failed" >>"$work/formatted"
    rm -rf "$work/copy"
    cat "$work/formatted"
    [ ! -s "$work/formatted" ]
}

# has_component WORD COMPONENT: of the Rust toolchain that runs. Debian's are of an older Rust than the crates need, so where it is missing and
# cannot be had, its checks are left out, and that is said.
has_component() {
    cargo "$1" --version >/dev/null 2>&1 || rustup component add "$2" >/dev/null 2>&1 || {
        echo "lint: LEFT OUT: cargo $1, whose component $2 is not there and cannot be had"
        return 1
    }
}

need shellcheck
need g++
need flake8
need mypy

for crate in crates/*; do
    passes "$crate" laid_out "$crate"
done
for package in bindings/rust tests/second; do
    manifest=$package/Cargo.toml
    if has_component fmt rustfmt; then
        passes "cargo fmt $package" cargo fmt --manifest-path $manifest --check
    fi
    if has_component clippy clippy; then
        passes "cargo clippy $package" cargo clippy --manifest-path $manifest --release --offline --quiet --all-targets -- -D warnings
    fi
done

passes shellcheck shellcheck -x .ci/run tests/*.sh tests/interface/*.sh examples/*.sh
for file in examples/c/*.c tests/interface/*.c tests/second/floor/*.c; do
    passes "$file" compiles "${CC:-cc}" -std=c11 "$file"
done
passes header.cpp compiles g++ -std=c++11 tests/interface/header.cpp
passes flake8 flake8
passes mypy mypy
echo "lint: $checks checks"
