#!/bin/sh
# The C interface: the header against the library, the calls under misuse, an installed copy.
# The library has to be made: target/staticlib/libkettlefrost.a (make examples makes it).
set -eu
cd "$(dirname "$0")/../.."
. tests/need.sh
here=tests/interface
library=target/staticlib/libkettlefrost.a
header=include/kettlefrost.h
cc=${CC:-cc}
work=$(mktemp -d)
trap 'rm -rf "$work"' EXIT
checks=0

fail() {
    echo "interface: $*"
    exit 1
}

# counted COMMAND..: a command whose last line is 'NAME: N checks'
counted() {
    "$@" >"$work/out" || fail "failed: $*"
    cat "$work/out"
    count=$(sed -n '$s/^[a-z]*: \([0-9]*\) checks$/\1/p' "$work/out")
    [ "${count:-0}" -gt 0 ] || fail "no checks: $*"
    checks=$((checks + count))
}

# passes NAME COMMAND..: one check
passes() {
    name=$1
    shift
    "$@" || fail "failed: $name"
    echo "$name: ok"
    checks=$((checks + 1))
}

# refused NAME WORDS COMMAND..: one check, that a command fails and says so
refused() {
    name=$1 words=$2
    shift 2
    if "$@" >"$work/out" 2>&1; then fail "not found: $name"; fi
    grep -q "$words" "$work/out" || {
        cat "$work/out"
        fail "found, but not told by '$words': $name"
    }
    echo "$name: found"
    checks=$((checks + 1))
}

# strict COMPILER..: every warning is an error
strict() {
    "$@" -Wall -Wextra -Wpedantic -Wconversion -Wno-sign-conversion -Werror
}

# build NAME SOURCE FLAG..: a C program with the library, as $work/NAME
build() {
    name=$1 source=$2
    shift 2
    strict "$cc" -std=c99 -O2 -g -I include "$@" "$here/$source" "$library" -o "$work/$name"
}

# ---- the header by itself

compiles() {
    strict "$cc" -std=c99 -fsyntax-only -x c "$header" &&
        strict "$cc" -std=c11 -fsyntax-only -x c "$header" &&
        strict g++ -std=c++11 -fsyntax-only -x c++ "$header"
}

# The use that the header's first comment shows: five lines, which deliver a frame to node 1.
worked_use() {
    sed -n '/^ \*     static kf_slot slots/,/^ \*     a = kf_collect/s/^ \*     //p' "$header" >"$work/lines"
    [ "$(wc -l <"$work/lines")" -eq 5 ] || return 1
    {
        echo '#include <kettlefrost.h>'
        echo 'static const uint8_t in[] = {16, 0, 0, 0, 18, 0, 0, 0, 15, 0, 0, 0, 0, 0, 2, 0, 0xAA, 0xBB};'
        echo 'enum { in_length = sizeof in };'
        echo 'static uint8_t out[KF_QUEUE_CAPACITY];'
        echo 'int main(void) {'
        cat "$work/lines"
        echo '    return !(a.number == KF_DONE && a.length == in_length && out[17] == 0xBB);'
        echo '}'
    } >"$work/use.c"
    strict "$cc" -std=c99 -I include "$work/use.c" "$library" -o "$work/use" && "$work/use"
}

# ---- the library by itself

# It defines the functions that the header declares, and no other name.
exports() {
    sed -n 's/^[a-z0-9_]* \(kf_[a-z_]*\)(.*/\1/p' "$header" | sort >"$work/declared"
    nm -g --defined-only "$library" | awk 'NF == 3 { print $3 }' | sort >"$work/defined"
    [ "$(wc -l <"$work/declared")" -eq 11 ] && diff "$work/declared" "$work/defined"
}

# It needs what the header says of the C library, and nothing else.
imports() {
    [ "$(nm -u "$library" | awk 'NF == 2 { print $2 }' | sort | tr '\n' ' ')" = 'memcpy memmove memset ' ]
}

# It has no variables: no section that can be written.
has_no_variables() {
    readelf -SW "$library" >"$work/sections"
    grep -q ' AX ' "$work/sections" && ! grep ' WA' "$work/sections"
}

# ---- the header against the library

# layout INCLUDES: the structs and constants of the header there
layout() {
    "$here/layout.py" >"$work/layout.c" &&
        strict "$cc" -std=c11 -fsyntax-only -I "$1" -I "$here" "$work/layout.c" &&
        echo "layout: $(grep -c '^[A-Z]*(' "$work/layout.c") checks"
}

# A header with two fields of a node exchanged, for the checks to find.
exchange_fields() {
    mkdir -p "$work/exchanged"
    sed 's/uint8_t status;/uint8_t kept;/; s/uint8_t behaviour;/uint8_t status;/; s/uint8_t kept;/uint8_t behaviour;/' \
        "$header" >"$work/exchanged/kettlefrost.h"
}

exchanged_fields() {
    "$cc" -std=c99 -I "$work/exchanged" "$here/fields.c" "$library" -o "$work/exchanged/fields" &&
        "$work/exchanged/fields"
}

# A header with one more field of a node.
add_field() {
    mkdir -p "$work/longer"
    sed 's/.*uint8_t pending;.*/&\n    uint32_t added;/' "$header" >"$work/longer/kettlefrost.h"
}

added_field() {
    "$cc" -std=c99 -I "$work/longer" "$here/constants.c" "$library" -o "$work/longer/constants" &&
        "$work/longer/constants"
}

# The crate for Rust has the header's version.
one_version() {
    version=$(awk '$2 ~ /^KF_VERSION_/ { printf dot $3; dot = "." }' "$header")
    grep -q -x "version = \"$version\"" bindings/rust/Cargo.toml
}

# ---- misuse

# planted PLANT PLACING: a run of misuse.c with a fault planted
planted() {
    PLANT=$1 "$work/planted" "$2" 3000 || {
        status=$?
        [ "$status" -ne 139 ] || echo 'memory fault'
        return 1
    }
}

need g++
need valgrind
export ASAN_OPTIONS=detect_leaks=0

passes 'the header compiles as C99, C11 and C++11' compiles
passes 'the use that it shows' worked_use
passes 'what the library exports' exports
passes 'what the library imports' imports
passes 'the library has no variables' has_no_variables

counted layout include
exchange_fields
refused 'exchanged fields, by the layout' 'position of kf_node_state.status' layout "$work/exchanged"
refused 'exchanged fields, by the calls' 'fields of a node' exchanged_fields
add_field
refused 'a field more, by kf_layout' 'layout: not so' added_field
passes 'the version of the Rust crate' one_version

build fields fields.c
counted "$work/fields"
build constants constants.c
counted "$work/constants"

build sanitized misuse.c -fsanitize=address,undefined -fno-sanitize-recover
passes 'misuse with sanitizers' "$work/sanitized" heap 20000
build misuse misuse.c
passes 'misuse with guard pages behind' "$work/misuse" behind 20000
passes 'misuse with guard pages before' "$work/misuse" before 20000
passes 'misuse under valgrind' valgrind -q --error-exitcode=9 "$work/misuse" heap 3000

build planted misuse.c "$here/planted.c" -Wl,--wrap=kf_collect
passes 'no fault planted' planted none heap
for plant in number state value buffer length; do
    refused "planted: $plant" 'misuse: not so' planted "$plant" heap
done
refused 'planted: behind' 'memory fault' planted behind behind
refused 'planted: before' 'memory fault' planted before before
refused 'planted: constant' 'memory fault' planted constant behind

counted "$here/installed.sh"
echo "interface: $checks checks"
