#!/bin/sh
# Each must-fail edit was refused where the fact stands that it breaks. An edit names the file in a comment line of its own,
# '# refused at: FILE', from the crate's folder: the file of the code, with the function, '# refused at: FILE, FUNCTION', where only the
# search for a proof decides. What rt prints of the edit has to stand there. It must not be that a proof names what the edit took away,
# nor that the prover met a limit of its own.
# usage: tests/edits.sh [LOG]    LOG is what 'rt ci' or 'rt must-fail' printed; without it, rt must-fail is run.
set -eu
cd "$(dirname "$0")/.."
rt=${RT:-rt}
work=$(mktemp -d)
trap 'rm -rf "$work"' EXIT
checks=0
failed=0

wrong() {
    echo "edits: $*"
    failed=$((failed + 1))
}

if [ $# -eq 0 ]; then
    "$rt" must-fail >"$work/log" || failed=1
    grep -v ': refused, as it must be: ' "$work/log" || true
    set -- "$work/log"
fi
sed -n 's/^rt: must-fail //p' "$1" >"$work/tried"

# The function of a file of the code that has this line; it begins with its attributes. An edit puts one line for one, so that the
# lines are those of the file.
function_at() {
    awk -v line="$2" '
        /^[ ]*#\[/ { if (!start) start = NR; next }
        match($0, /fn [a-z_0-9]+[(<]/) { if ((start ? start : NR) <= line) name = substr($0, RSTART + 3, RLENGTH - 4) }
        { start = 0 }
        END { print name }
    ' "$1"
}

for edit in crates/*/must-fail/*.edit; do
    crate=${edit#crates/}
    crate=${crate%%/*}
    name=$crate/$(basename "$edit")
    named=$(sed -n 's/^# refused at: //p' "$edit")
    line=$(grep -F "$name: " "$work/tried" | tail -n 1)
    checks=$((checks + 1))
    if [ -z "$named" ] || [ ! -f "crates/$crate/${named%%, *}" ]; then
        wrong "$name: no line '# refused at: FILE' that names a file of the crate"
        continue
    fi
    said=${line#"$name: refused, as it must be: "}
    case $line in
    '') wrong "$name: nothing is said of it: run 'rt must-fail $crate'" ;;
    "$name: refused, as it must be: note: "*": it is not proved that "* | "$name: refused, as it must be: "*": error: "*)
        said=${said#note: }
        said=${said#./}
        at=${said%%:*}
        case $at in
        src/*)
            number=${said#"$at:"}
            at="$at, $(function_at "crates/$crate/$at" "${number%%:*}")"
            ;;
        esac
        [ "$at" = "$named" ] || wrong "$name: refused at $at, and it says $named"
        ;;
    *) wrong "$line" ;;
    esac
done

[ "$failed" -eq 0 ] || exit 1
echo "edits: $checks checks"
