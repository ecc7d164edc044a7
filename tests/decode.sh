#!/bin/sh
# What the program `decode` writes where there is nothing to decode, and that it decodes the sample as stored, and a short stream.
set -eu
cd "$(dirname "$0")/.."
rt=${RT:-rt}
decode=crates/decode/out/decode
work=$(mktemp -d)
trap 'rm -rf "$work"' EXIT
checks=0

# check NAME STDOUT-FILE ARGUMENT..: standard output as in the file; standard error is kept
check() {
    name=$1 want=$2
    shift 2
    "$decode" "$@" >"$work/out" 2>"$work/err"
    cmp -s "$work/out" "$want" || {
        echo "decode: $name: standard output differs"
        exit 1
    }
    checks=$((checks + 1))
}

says() {
    grep -q "$1" "$work/err" || {
        echo "decode: $name: standard error does not say '$1'"
        cat "$work/err"
        exit 1
    }
}

# rt builds the program where it is not built. The sample that lies beside it, for rt ci to run it on, is the same file.
(cd crates/decode && "$rt" run -- ../../samples/mixed.bin) >"$work/out" 2>"$work/err" || {
    cat "$work/err"
    echo 'decode: rt does not run it'
    exit 1
}
cmp "$work/out" crates/decode/stdout
cmp samples/mixed.bin crates/decode/data/mixed.bin
checks=$((checks + 1))

# What the sample does not show: a number shorter than its column, and fault 1.
printf '\100\0\0\0\15\0\0\0\1\5\0\0\0\21\0\0\0\31\0\0\0\17\0\0\0\0\0\0\10\0\1\2\3\4\5\6\7\10\1\2\3' >"$work/short"
cat >"$work/short-out" <<'END'
     0  Configuration     kind 1 CAN_BAUDRATE               baud rate 5
    13  CAN FD Transmit   ID      00F  Ide 0  Brs 0  Esi 0  DL  8  01 02 03 04 05 06 07 08
    38  fault 1           fewer than 8 bytes remain    01 02 03
END
check 'a short stream' "$work/short-out" "$work/short"

: >"$work/none"
check 'the sample' crates/decode/stdout samples/mixed.bin
check 'an empty file' "$work/none" "$work/none"
check 'a missing file' "$work/none" "$work/missing"
says missing
check 'a folder' "$work/none" "$work"
says "$work"
check 'no argument' "$work/none"
says usage
check 'two arguments' "$work/none" "$work/none" "$work/none"
says usage
head -c 65537 /dev/zero >"$work/long"
check 'a file that is too long' "$work/none" "$work/long"
says '65536'
head -c 65536 /dev/zero >"$work/full"
"$decode" "$work/full" >"$work/out" 2>"$work/err"
if [ "$(wc -l <"$work/out")" -ne 1 ] || [ -s "$work/err" ]; then
    echo "decode: a file of 65,536 bytes is not decoded to one fault"
    exit 1
fi
checks=$((checks + 1))
echo "decode: $checks checks"
