#!/bin/sh
# That no call of the library goes beside what it is lent. The comparisons run with each part of it in a block of its own:
# - between pages without access, where any access beside the block ends the run, as does a write to what is lent to be read;
# - under AddressSanitizer, which sees the accesses of the harness and those that the library makes through the C library;
# - under valgrind, which sees every access.
# Each way is shown to notice a caller that lends less than it says. Takes the library from target/staticlib.
set -eu
cd "$(dirname "$0")/.."
. tests/need.sh
need valgrind
cd tests/second
target=x86_64-unknown-linux-gnu
plain=target/release/memory
asan=target/asan/$target/release/memory
log=$(mktemp)
trap 'rm -f "$log"' EXIT
checks=0

fail() {
    cat "$log"
    echo "memory: $*"
    exit 1
}

# passes NAME COMMAND..: codec, register and bus are compared without a difference
passes() {
    name=$1
    shift
    "$@" >"$log" 2>&1 || fail "$name: failed"
    [ "$(grep -c ', 0 differences$' "$log")" -eq 3 ] || fail "$name: not all was compared"
    sed "s/^memory:/$name:/" "$log"
    checks=$((checks + 1))
}

# notices NAME STATUS TEXT COMMAND..: ends with this status and says this, if anything
notices() {
    name=$1 want=$2 text=$3 status=0
    shift 3
    { "$@" >"$log" 2>&1; } 2>/dev/null || status=$?
    [ "$status" -eq "$want" ] || fail "$name: status $status, not $want"
    [ -z "$text" ] || grep -q "$text" "$log" || fail "$name: does not say '$text'"
    checks=$((checks + 1))
}

cargo build --release --offline --quiet --bin memory
# The sanitizer comes with the stable toolchain and is switched on as an unstable option.
RUSTC_BOOTSTRAP=1 RUSTFLAGS=-Zsanitizer=address \
    cargo build --release --offline --quiet --bin memory --target $target --target-dir target/asan

segmentation_fault=139
for place in end front; do
    passes "pages, $place" $plain --lent $place --calls 100000
    notices "pages, $place: a write to what is const" $segmentation_fault '' $plain --lent $place --misuse write-const
done
for misuse in read-past write-past; do
    notices "pages, end: $misuse" $segmentation_fault '' $plain --lent end --misuse $misuse
done
notices 'pages, front: read-before' $segmentation_fault '' $plain --lent front --misuse read-before

# Leaks are not what is looked for, and the search for them is not allowed everywhere.
export ASAN_OPTIONS=detect_leaks=0
passes AddressSanitizer $asan --lent heap --calls 200000
under_valgrind() {
    valgrind --quiet --error-exitcode=9 "$@"
}
passes valgrind under_valgrind $plain --lent heap --calls 3000
for misuse in read-past read-before write-past; do
    notices "AddressSanitizer: $misuse" 1 'AddressSanitizer: heap-buffer-overflow' $asan --second --misuse $misuse
    notices "valgrind: $misuse" 9 "Invalid ${misuse%-*} of size" under_valgrind $plain --misuse $misuse
done
echo "memory: $checks checks"
