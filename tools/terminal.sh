# How a program is run at a terminal. `live` and the installed windlive source this file.
# shellcheck shell=sh

# Runs a program on its words. At a terminal its keys come one by one: the terminal neither edits nor echoes, ^C is a key, and the
# program gets the word --terminal. At every end that can be caught the terminal is as it was.
#
# usage: typed PROGRAM WORDS..
typed() {
    [ -t 0 ] || exec "$@"
    settings=$(stty -g)
    trap 'stty "$settings" 2>/dev/null || :' EXIT
    trap 'exit 129' HUP
    trap 'exit 130' INT
    trap 'exit 131' QUIT
    trap 'exit 143' TERM
    stty -icanon min 1 time 0 -echo intr undef
    typed_program=$1
    shift
    "$typed_program" --terminal "$@"
}
