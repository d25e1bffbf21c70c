#!/bin/sh
# Builds the C library and soft floating point as modules, from Debian's sources of musl and glibc, with the flags of docs/modules.md:
# clib.o (strings, stdlib, sprintf and sscanf, ctype, math, setjmp), softfp.o (what the compiler calls for doubles and 64-bit integers), and
# the folder `include` with musl's headers. Then the session's module, report.o. Nothing of the sources is kept but what the modules
# hold. It takes apt-get with a deb-src line, and half a minute.
#
# usage: examples/clib/build.sh [FOLDER_OF_ARCHIVES]   where musl_*.orig.tar.* and glibc_*.orig.tar.* are, or are fetched to
set -eu
here=$(cd "$(dirname "$0")" && pwd)
work=$(mktemp -d)
trap 'rm -rf "$work"' EXIT
archives=${1:-$work}
flags='-fno-pic -ffreestanding -msoft-float -mno-sdata -G 0 -fno-stack-protector -fno-asynchronous-unwind-tables'
cc="powerpc-linux-gnu-gcc -O2 $flags -mlong-double-64 -fno-tree-loop-distribute-patterns -w"

# Unpacks the source of a package of Debian, which it fetches if there is no archive of it.
unpack() {
    ls "$archives/$1"_*.orig.tar.* >/dev/null 2>&1 || (cd "$archives" && apt-get source -q --download-only --tar-only "$1" >/dev/null)
    mkdir "$work/$1"
    archive=$(ls "$archives/$1"_*.orig.tar.* | grep -v '\.asc$' | head -n 1)
    tar -xf "$archive" -C "$work/$1" --strip-components=1
}

# Makes the headers that musl generates for a processor.
make_headers() {
    rm -rf "$here/include"
    cp -r "$work/musl/include" "$here/include"
    rm "$here/include/alltypes.h.in"
    mkdir -p "$here/include/bits"
    cp "$work"/musl/arch/generic/bits/*.h "$here/include/bits"
    cp "$work"/musl/arch/powerpc/bits/*.h "$here/include/bits"
    sed -f "$work/musl/tools/mkalltypes.sed" "$work/musl/arch/powerpc/bits/alltypes.h.in" "$work/musl/include/alltypes.h.in" \
        >"$here/include/bits/alltypes.h"
    cp "$work/musl/arch/powerpc/bits/syscall.h.in" "$here/include/bits/syscall.h"
}

# The sources of musl that need no system.
sources() {
    cd "$work/musl/src"
    ls string/*.c ctype/*.c math/*.c | grep -v -e 'ctype/isw' -e 'ctype/tow' -e 'ctype/wc' -e strsignal -e strerror -e 'string/.*wc' -e 'string/wm' \
        -e strdup -e __ctype_get_mb
    ls string/strdup.c string/strndup.c fenv/fenv.c
    ls stdlib/*.c | grep -v -e ecvt -e fcvt -e gcvt -e wcsto
    ls stdio/sprintf.c stdio/snprintf.c stdio/vsprintf.c stdio/vsnprintf.c stdio/vfprintf.c stdio/fwrite.c stdio/__towrite.c
    ls stdio/sscanf.c stdio/vsscanf.c stdio/vfscanf.c stdio/__toread.c stdio/__uflow.c
    ls internal/floatscan.c internal/intscan.c internal/shgetc.c prng/rand.c
}

make_clib() {
    mkdir "$work/clib"
    internal="-std=c99 -D_XOPEN_SOURCE=700 -I $work/musl/arch/powerpc -I $work/musl/arch/generic -I $work/musl/src/include"
    for source in $(sources); do
        # shellcheck disable=SC2086 # the words of the compiler stand apart by blanks
        $cc $internal -I "$work/musl/src/internal" -I "$here/include" -c "$work/musl/src/$source" \
            -o "$work/clib/$(echo "$source" | tr / _).o"
    done
    # shellcheck disable=SC2086
    $cc -I "$here/include" -c "$here/glue.c" -o "$work/clib/glue.o"
    powerpc-linux-gnu-ld -r "$work"/clib/*.o -o "$here/clib.o"
}

make_softfp() {
    mkdir "$work/softfp" "$work/libgcc"
    for name in add sub mul div neg eq ge le unord; do
        for mode in s d; do
            case $name in
            add | sub | mul | div) softfp "$name${mode}f3" ;;
            *) softfp "$name${mode}f2" ;;
            esac
        done
    done
    for name in fixsfsi fixsfdi fixdfsi fixdfdi fixunssfsi fixunssfdi fixunsdfsi fixunsdfdi floatsisf floatsidf floatdisf floatdidf \
        floatunsisf floatunsidf floatundisf floatundidf extendsfdf2 truncdfsf2; do
        softfp $name
    done
    (cd "$work/libgcc" && powerpc-linux-gnu-ar x "$(powerpc-linux-gnu-gcc -print-libgcc-file-name)")
    whole='_?(u?divmod|u?div|u?mod|mul|neg|ashl|ashr|lshr|u?cmp|clz|ctz|ffs|popcount|parity|bswap)[ds]i[234]?'
    integers=$(find "$work/libgcc" -name '*.o' | grep -E "/($whole|crt(sav|res)x?gpr|_(clz|popcount_tab))\.o\$" | sort)
    # shellcheck disable=SC2086
    powerpc-linux-gnu-ld -r "$work"/softfp/*.o $integers -o "$here/softfp.o"
}

# Compiles a source of soft-fp.
softfp() {
    # shellcheck disable=SC2086
    $cc -I "$here" -I "$work/glibc/soft-fp" -I "$work/glibc/stdlib" -c "$work/glibc/soft-fp/$1.c" -o "$work/softfp/$1.o"
}

# A module that must load after others, and lack nothing.
check() {
    "$here/../../tools/why" "$@" || { echo "$0: $1 isn't right" >&2; exit 1; }
}

unpack musl
unpack glibc
make_headers
make_softfp
make_clib
check "$here/softfp.o"
check "$here/clib.o" "$here/softfp.o"
# shellcheck disable=SC2086
powerpc-linux-gnu-gcc -O1 $flags -Wall -Werror -mlong-double-64 -I "$here/include" -I "$here/../../include" -c "$here/report.c" \
    -o "$here/report.o"
check "$here/report.o" "$here/softfp.o" "$here/clib.o"
