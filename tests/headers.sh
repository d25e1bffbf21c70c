#!/bin/sh
# Compiles each header of `include` alone, then all together, without a warning: as C and as C++, by each of the compilers below that
# is there. Then it compiles the C sources of examples with the flags of docs/modules.md, and compares those that Debian 12's compiler
# makes with the objects beside them. It prints a line for each fault and one that counts. It ends with 1 if there is a fault.
#
# usage: tests/headers.sh
set -u
top=$(cd "$(dirname "$0")/.." && pwd)
cd "$top" || exit 2
work=$(mktemp -d) || exit 2
trap 'rm -rf "$work"' EXIT
flags='-fno-pic -ffreestanding -msoft-float -mno-sdata -G 0 -fno-stack-protector -fno-asynchronous-unwind-tables -I include'
compiled=0
faults=0

fault() {
    echo "headers: $1"
    faults=$((faults + 1))
}

# Compiles the case's source by these words.
compile() {
    compiled=$((compiled + 1))
    "$@" -Wall -Wextra -Werror -ffreestanding -I include -c "$work/source" -o "$work/header.o" 2>"$work/log" || {
        fault "$*: $text"
        cat "$work/log"
    }
}

# Compiles the headers by these words.
headers() {
    command -v "$1" >/dev/null || return 0
    for header in include/*.h; do
        text=$(basename "$header")
        echo "#include <$text>" >"$work/source"
        compile "$@"
    done
    text='all together'
    for header in include/*.h include/*.h; do
        echo "#include <$(basename "$header")>"
    done >"$work/source"
    compile "$@"
}

# Compiles a source of examples by these words, to the object of that name.
example() {
    object=$1
    shift
    compiled=$((compiled + 1))
    # shellcheck disable=SC2086 # the flags stand apart by blanks
    powerpc-linux-gnu-gcc $flags -Wall -Werror "$@" -c -o "$work/example.o" || fault "$*"
    case $(powerpc-linux-gnu-gcc --version) in
    *'Debian 12.2.0-'*) cmp -s "$work/example.o" "$object" || fault "$object isn't what $* gives" ;;
    esac
}

[ -n "$(ls include/*.h)" ] || exit 2
headers gcc -std=gnu17 -x c
headers powerpc-linux-gnu-gcc -std=gnu17 -x c
headers powerpc-linux-gnu-gcc -std=c90 -pedantic -x c
headers g++ -x c++
headers powerpc-linux-gnu-g++ -x c++
if command -v powerpc-linux-gnu-gcc >/dev/null; then
    example examples/deadlock/deadlock.o -O1 examples/deadlock/deadlock.c
    example examples/modules/talk.o -O1 examples/modules/talk.c
    example examples/libgcc/alone.o -Os examples/libgcc/mean.c
    example examples/instrument/instrument.o -O1 -g -fdebug-prefix-map="$top"=. examples/instrument/instrument.c
fi
echo "headers: $compiled compilations, $faults faults"
[ "$faults" -eq 0 ]
