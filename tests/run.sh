#!/bin/sh
# Plays the cases of the folder `cases` with PROGRAM. It prints a line for each case that differs, and one that counts
# all. It ends with 1 if a case differs, and with 2 if there is none or not all could be played.
#
# With BOARD 2 it plays them on a board of that kind. They have to end the same, with the same outputs but for addresses: each number
# of five digits or more counts as one. Cases that are of board 1 alone say so, and are left out.
#
# With a file CHOICE it plays the cases that it names alone, `SUBJECT: NAME` in a line, and prints a line for each. It ends with 2 if
# one of them isn't there.
#
# usage: tests/run.sh PROGRAM [BOARD [CHOICE]]
set -eu
if [ $# -lt 1 ] || [ $# -gt 3 ]; then
    echo "usage: $0 PROGRAM [BOARD [CHOICE]]" >&2
    exit 2
fi
board=${2:-1}
choice=${3:-}
program=$(command -v "$1") || { echo "$0: $1: no such program" >&2; exit 2; }
case $program in /*) ;; *) program=$PWD/$program ;; esac
here=$(cd "$(dirname "$0")" && pwd)
work=$(mktemp -d)
all_played=no
trap 'rm -rf "$work"; [ "$all_played" = yes ] || exit 2' EXIT
# By whatever name the program lies, its usage line tells this one.
ln -s "$program" "$work/windplay"

# What the session writes with which each case begins.
output='-> 1+2\nvalue = 3 = 0x3\n-> '

# Whether a case, or any case of a subject, is chosen.
is_chosen() {
    [ -z "$choice" ] || grep -qxF -e "$1: $2" "$choice"
}

has_chosen() {
    [ -z "$choice" ] || grep -q "^$1: " "$choice"
}

cases=0
left_out=0
without_tools=0
differing=0
told=yes

# Begins a case, by what it shows: a folder with the console `1+2` and an empty tick file.
shows() {
    ended
    name=$1
    told=no
    skipped=no
    unset status
    cases=$((cases + 1))
    is_chosen "$subject" "$name" || leave_out
    rm -rf "$work/session"
    mkdir "$work/session"
    console '1+2\n'
    ticks ''
}

leave_out() {
    [ "$skipped" = no ] || return 0
    skipped=yes
    cases=$((cases - 1))
    left_out=$((left_out + 1))
}

# The case is of board 1 alone: it names a board, or where RAM or the gates are, or it takes all blocks or all memory.
of_board_1() {
    [ "$board" = 1 ] || leave_out
}

# The case needs these tools of the host. It is left out where one isn't there.
needs() {
    for tool in "$@"; do
        [ "$skipped" = yes ] || command -v "$tool" >"$work/log" || {
            skipped=yes
            cases=$((cases - 1))
            without_tools=$((without_tools + 1))
            return 0
        }
    done
}

# Each case has to say how it ends.
ended() {
    [ "$told" = yes ] || { printf '%s\n' "$subject: $name: no end" >&2; exit 2; }
}

# Puts bytes into a file of the case. They are written as for the `%b` of printf: `\n`, `\0ooo`, `\\`.
file() {
    printf '%b' "$2" >"$work/session/$1"
}

console() {
    file console.txt "$1"
}

ticks() {
    file ticks.txt "$1"
}

# Puts a number of blanks into a file of the case.
blanks() {
    printf "%$2s" '' >"$work/session/$1"
}

# Writes the bytes of words in hexadecimal digits.
bytes() {
    for word in "$@"; do
        while [ -n "$word" ]; do
            rest=${word#??}
            byte=$((0x${word%"$rest"}))
            printf "\\$((byte / 64))$((byte / 8 % 8))$((byte % 8))"
            word=$rest
        done
    done
}

# Puts the bytes of words in hexadecimal digits into a file of the case.
words() {
    target=$1
    shift
    bytes "$@" >"$work/session/$target"
}

# Puts the bytes of words in hexadecimal digits over those of a file of the case from a place on.
patch() {
    target=$1
    at=$2
    shift 2
    bytes "$@" | dd of="$work/session/$target" bs=1 seek="$at" conv=notrunc 2>"$work/log"
}

without() {
    rm "$work/session/$1"
}

# Becomes the program with these words, in the folder of the case.
become() {
    [ "$skipped" = no ] || return 0
    [ "$board" = 1 ] || set -- --board "$board" "$@"
    cd "$work/session" && exec "$work/windplay" "$@"
}

# Plays the program with these words.
plays() {
    status=0
    (become "$@") >"$work/stdout" 2>"$work/stderr" || status=$?
}

# The same, but the first word limits the address space, in KiB.
plays_within() {
    most=$1
    shift
    status=0
    (ulimit -v "$most" && become "$@") >"$work/stdout" 2>"$work/stderr" || status=$?
}

# The same, with standard output going to a file of the host.
plays_out_to() {
    status=0
    : >"$work/stdout"
    into=$1
    shift
    (become "$@") >"$into" 2>"$work/stderr" || status=$?
}

# The same, with standard error going to a file of the host.
plays_err_to() {
    status=0
    : >"$work/stderr"
    into=$1
    shift
    (become "$@") >"$work/stdout" 2>"$into" || status=$?
}

plays_with_out_closed() {
    status=0
    : >"$work/stdout"
    (become "$@") >&- 2>"$work/stderr" || status=$?
}

plays_with_err_closed() {
    status=0
    : >"$work/stderr"
    (become "$@") >"$work/stdout" 2>&- || status=$?
}

# Standard output is a pipe; a number of bytes are read from it, then it is closed.
plays_before_a_reader_of() {
    count=$1
    shift
    {
        status=0
        (become "$@") 2>"$work/stderr" || status=$?
        echo "$status" >"$work/status"
    } | dd bs=1 count="$count" >"$work/stdout" 2>"$work/log"
    status=$(cat "$work/status")
}

# Standard output is a pipe that nobody reads any more.
plays_without_a_reader() {
    status=0
    : >"$work/stdout"
    rm -f "$work/pipe"
    mkfifo "$work/pipe"
    (
        exec 3<>"$work/pipe" 4>"$work/pipe"
        exec 3>&-
        become "$@" >&4 4>&-
    ) 2>"$work/stderr" || status=$?
}

# Notes a difference of the case.
differs() {
    difference="${difference:+$difference; }$1"
}

# Puts `#` in place of each number of five digits or more in a file, unless the board is 1.
mask() {
    [ "$board" = 1 ] || {
        LC_ALL=C sed -E 's/-?(0x)?[0-9a-f]{5,}/#/g' "$work/$1" >"$work/masked"
        mv "$work/masked" "$work/$1"
    }
}

# Compares the expected bytes with those of a file.
compare_expected() {
    mask expected
    mask "$1"
    place=$(cd "$work" && cmp expected "$1" 2>&1) || differs "$place"
}

# Compares what was written with these bytes.
compare() {
    printf '%b' "$2" >"$work/expected"
    compare_expected "$1"
}

# Ends the case.
tell() {
    told=yes
    [ "$skipped" = no ] || return 0
    if [ -n "$difference" ]; then
        printf '%s\n' "$subject: $name: $difference"
        differing=$((differing + 1))
    elif [ -n "$choice" ]; then
        printf '%s\n' "$subject: $name: as expected"
    fi
}

# The case ends with this status, standard output and standard error.
ends() {
    difference=
    [ "$status" = "$1" ] || differs "status $status, not $1"
    compare stdout "$2"
    compare stderr "$3"
    tell
}

# Plays the case with no more words than a limit. It ends quiet after exactly that many steps, with this standard output.
lasts() {
    difference=
    plays --limit "$1"
    [ "$status" = 3 ] || differs "status $status at a limit of $1, not 3"
    compare stdout "$2"
    compare stderr "windplay: limit of $1 steps reached\\n"
    plays --limit "$(($1 + 1))"
    [ "$status" = 0 ] || differs "status $status at a limit of one more, not 0"
    compare stdout "$2"
    compare stderr ''
    tell
}

# Writes the line of a value.
value() {
    printf 'value = %d = 0x%x' "$1" "$(($1 & 0xffffffff))"
    if [ "$1" -ge 32 ] && [ "$1" -le 126 ]; then
        printf " = '%b'" "\\0$(printf '%o' "$1")"
    fi
    printf '\n'
}

# Writes what a row says that a line comes to.
outcome() {
    left=$1
    while [ -n "$left" ]; do
        part=${left%%' | '*}
        case $left in
        *' | '*) left=${left#*' | '} ;;
        *) left= ;;
        esac
        case $part in
        nothing) ;;
        '') echo ;;
        *[!-0-9]*) printf '%s\n' "$part" ;;
        *) value "$part" ;;
        esac
    done
}

# Plays a console whose lines are those of a table, with these words. The case ends quiet, and each line comes to what its
# row says.
rows() {
    : >"$work/session/console.txt"
    printf '%s' '-> ' >"$work/expected"
    while IFS= read -r row; do
        line=${row%%' => '*}
        printf '%s\n' "$line" >>"$work/session/console.txt"
        {
            printf '%s\n' "$line"
            outcome "${row#*' => '}"
            printf '%s' '-> '
        } >>"$work/expected"
    done
    difference=
    plays "$@"
    [ "$status" = 0 ] || differs "status $status, not 0"
    compare_expected stdout
    compare stderr ''
    tell
}

# The case is a refusal of its words: this is the first line on standard error, the last one leads to the help.
refuses() {
    difference=
    [ "$status" = 1 ] || differs "status $status, not 1"
    compare stdout ''
    first=$(sed -n 1p "$work/stderr")
    last=$(sed -n '$p' "$work/stderr")
    [ "$first" = "error: $1" ] || differs "stderr begins: $first"
    [ "$last" = "For more information, try '--help'." ] || differs "stderr ends: $last"
    tell
}

for path in "$here"/cases/*.sh; do
    [ -f "$path" ] || { echo "$0: no cases" >&2; exit 2; }
    subject=$(basename "$path" .sh)
    has_chosen "$subject" || continue
    before=$((cases + left_out + without_tools))
    . "$path"
    ended
    [ "$((cases + left_out + without_tools))" -gt "$before" ] || { echo "$subject: no case" >&2; exit 2; }
done

chosen=$cases
[ -z "$choice" ] || chosen=$(grep -c . "$choice")
[ "$cases" -eq "$chosen" ] || { echo "$0: $choice: $chosen cases, $cases of them are there" >&2; exit 2; }
all_played=yes
if [ -n "$choice" ]; then
    :
elif [ "$board" = 1 ]; then
    echo "$cases cases, $differing of them differ"
else
    echo "$cases cases on board $board, $differing of them differ; $left_out are of board 1 alone"
fi
[ "$without_tools" -eq 0 ] || echo "$without_tools cases are left out: their tools aren't installed"
[ "$differing" -eq 0 ]
