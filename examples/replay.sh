#!/bin/sh
# Plays each session of this folder with PROGRAM, with the words of its file `words` if there is one, and compares its
# standard output with the file `stdout` beside it. Each has to end quiet, with status 0. It prints a line for each, and ends with 1 if one differs.
# With BOARD 2 it plays them on a board of that kind. Their outputs have to be the same but for addresses: each number of five
# digits or more counts as one. A session with a file `of_board_1`, which says why, is left out.
#
# usage: examples/replay.sh PROGRAM [BOARD]
if [ $# -lt 1 ] || [ $# -gt 2 ]; then
    echo "usage: $0 PROGRAM [BOARD]" >&2
    exit 2
fi
board=${2:-1}
program=$(command -v "$1") || { echo "$0: $1: no such program" >&2; exit 2; }
case $program in /*) ;; *) program=$PWD/$program ;; esac
output=$(mktemp) || exit 2
wanted=$(mktemp) || exit 2
trap 'rm -f "$output" "$wanted"' EXIT

# Puts `#` in place of each number of five digits or more in a text, unless the board is 1.
mask() {
    if [ "$board" = 1 ]; then cat; else LC_ALL=C sed -E 's/-?(0x)?[0-9a-f]{5,}/#/g'; fi
}

differs=0
for expected in "$(dirname "$0")"/*/stdout; do
    session=$(dirname "$expected")
    if [ "$board" != 1 ] && [ -f "$session/of_board_1" ]; then
        echo "$(basename "$session"): of board 1 alone"
        continue
    fi
    status=0
    words="--board $board"
    [ ! -f "$session/words" ] || words="$words $(cat "$session/words")"
    # shellcheck disable=SC2086 # the words of a session stand apart by blanks
    (cd "$session" && exec "$program" $words) >"$output" || status=$?
    mask <"$expected" >"$wanted"
    if [ "$status" -ne 0 ]; then
        echo "$(basename "$session"): status $status"
        differs=1
    elif mask <"$output" | cmp -s "$wanted" -; then
        echo "$(basename "$session"): as expected"
    else
        echo "$(basename "$session"): output differs"
        differs=1
    fi
done
exit "$differs"
