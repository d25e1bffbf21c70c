#!/bin/sh
# Refuses each allocation of a session in turn, one in a run, and checks how the run ends: with status 6 and a prefix of the session's bytes, or
# as without a refusal. It prints a line for each session, and ends with 1 if a run ended otherwise. It is no part of the gate.
#
# usage: bench/refuse.sh PROGRAM
set -eu
[ $# -eq 1 ] || { echo "usage: $0 PROGRAM" >&2; exit 2; }
here=$(cd "$(dirname "$0")" && pwd)
program=$(cd "$(dirname "$1")" && pwd)/$(basename "$1")
work=$(mktemp -d)
trap 'rm -rf "$work"' EXIT
cc -shared -fPIC -O2 -o "$work/refuse.so" "$here/refuse/refuse.c" -ldl

# Plays the session in a folder with allocation number $2 refused (0: none). Sets `status`, and `asked`, the allocations that it asked for.
plays() {
    status=0
    (cd "$1" && REFUSE=$2 REFUSE_COUNT="$work/count" LD_PRELOAD="$work/refuse.so" "$program" >"$work/output" 2>"$work/words") || status=$?
    asked=$(od -An -tu4 "$work/count" | tr -d ' ')
}

# Whether the run that was just played ended as it has to.
is_right() {
    [ "$status" -ne "$whole" ] || cmp -s "$work/output" "$work/expected" || return 1
    [ "$status" -eq "$whole" ] && return 0
    [ "$status" -eq 6 ] && head -c "$(wc -c <"$work/output")" "$work/expected" | cmp -s - "$work/output"
}

# Refuses each allocation of the session in a folder.
refuses() {
    name=$1
    folder=$2
    plays "$folder" 0
    whole=$status
    total=$asked
    cp "$work/output" "$work/expected"
    number=1
    memory=0
    wrong=0
    while [ "$number" -le "$total" ]; do
        plays "$folder" "$number"
        if ! is_right; then
            echo "$name: allocation $number: status $status"
            wrong=$((wrong + 1))
        fi
        [ "$status" -ne 6 ] || memory=$((memory + 1))
        number=$((number + 1))
    done
    printf '%-24s %8d allocations, %8d runs ended with status 6, %d wrong\n' "$name" "$total" "$memory" "$wrong"
    failed=$((failed + wrong))
}

failed=0
mkdir "$work/sum" "$work/three"
echo '1+2' >"$work/sum/console.txt"
: >"$work/sum/ticks.txt"
refuses 'a sum' "$work/sum"

if command -v powerpc-linux-gnu-as >/dev/null; then
    printf '.globl f\nf: nop\nnop\nnop\nblr\n' | powerpc-linux-gnu-as -o "$work/three/a.o" -
    cp "$work/three/a.o" "$work/three/b.o"
    printf 'bl f\nnop\nnop\nblr\n' | powerpc-linux-gnu-as -o "$work/three/c.o" -
    printf 'ld < a.o\nld < b.o\nld < c.o\nunld 3\n&f\n*0x15e70\n' >"$work/three/console.txt"
    : >"$work/three/ticks.txt"
    refuses 'three modules' "$work/three"
else
    printf '%-24s not installed\n' 'powerpc-linux-gnu-as'
fi
refuses 'a module from C' "$here/../examples/modules"
refuses 'a module of 230 KB' "$here/../examples/instrument"
[ "$failed" -eq 0 ]
