#!/bin/sh
# Holds objects against GNU binutils: readelf reads all of each without a warning, and objdump disassembles the words
# that stand in its text.
#
#     tools/objects.sh [OBJECT..]
#
# With no OBJECT, the programs of examples/ are compiled, each for both targets as far as the compiler takes it. What
# binutils lacks for a target is skipped with a line. The status is 0 where nothing failed, else 1.
top=$(cd "$(dirname "$0")/.." && pwd) || exit 1
if ! command -v readelf > /dev/null; then
    echo "skipped: readelf is not installed"
    exit 0
fi
room=$(mktemp -d) || exit 1
trap 'rm -rf "$room"' EXIT
failed=0
held=0

fail() {
    echo "FAILED $1: $2"
    failed=$((failed + 1))
}

# The prefix of the cross tools for an object.
prefix_of() {
    case $(readelf -h "$1" 2> /dev/null | sed -n 's/^ *Machine: *//p') in
        RISC-V) echo riscv64-linux-gnu ;;
        ARM) echo arm-linux-gnueabi ;;
        *) echo none ;;
    esac
}

# The words of the section .text, one a line.
words_of() {
    readelf -S -W "$1" | sed -n 's/^ *\[ *1\] \.text *//p' | {
        read -r _ _ offset size _
        [ "$((0x$size))" -eq 0 ] || od -A n -v -t x4 -w4 -j "$((0x$offset))" -N "$((0x$size))" "$1" | tr -d ' '
    }
}

# An object: what it is called, and its file.
hold() {
    prefix=$(prefix_of "$2")
    if [ "$prefix" = none ]; then
        fail "$1" "readelf finds neither machine"
        return
    fi
    if ! command -v "$prefix-objdump" > /dev/null || ! command -v "$prefix-readelf" > /dev/null; then
        echo "skipped $1: $prefix-objdump and $prefix-readelf are not installed"
        return
    fi
    before=$failed
    "$prefix-readelf" -a -W "$2" > "$room/headers" 2> "$room/warnings" || fail "$1" "readelf ends with a failure"
    if [ -s "$room/warnings" ] || grep -qi 'warning' "$room/headers"; then
        fail "$1" "readelf warns: $(cat "$room/warnings")"
    fi
    "$prefix-objdump" -d -z "$2" > "$room/text" 2> "$room/warnings" || fail "$1" "objdump ends with a failure"
    [ ! -s "$room/warnings" ] || fail "$1" "objdump warns: $(cat "$room/warnings")"
    ! grep -qE 'UNDEFINED|unknown|\.(word|insn|short|2byte|4byte)' "$room/text" || fail "$1" "objdump does not know an instruction"
    sed -nE 's/^ *[0-9a-f]+:[[:space:]]+([0-9a-f]{8})[[:space:]].*/\1/p' "$room/text" > "$room/read"
    words_of "$2" > "$room/words"
    cmp -s "$room/read" "$room/words" || fail "$1" "objdump reads other words than stand in the text"
    [ "$failed" -ne "$before" ] || held=$((held + 1))
}

compile() {
    name=$(basename "$1" .ssa)
    "$top/backend" compile "$2" 1 < "$1" > "$room/object" 2> "$room/message"
    status=$?
    case $status in
        0) hold "$name for $2" "$room/object" ;;
        1 | 2 | 3) echo "skipped $name for $2: $(cat "$room/message")" ;;
        *) fail "$name for $2" "status $status: $(cat "$room/message")" ;;
    esac
}

if [ $# -gt 0 ]; then
    for object in "$@"; do
        hold "$object" "$object"
    done
else
    : > "$room/nothing.ssa"
    for source in "$room/nothing.ssa" "$top"/examples/*.ssa; do
        for target in riscv64 arm; do
            compile "$source" "$target"
        done
    done
fi
echo "$held held, $failed failed"
[ "$failed" -eq 0 ]
