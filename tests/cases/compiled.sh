# Modules that the stock compiler makes here, where it is there: C with the headers, refused and incomplete modules with what
# tools/why says of them, and the way from an exception to a line of C. The words of `ld` are those of docs/modules.md.

flags="-fno-pic -ffreestanding -msoft-float -mno-sdata -G 0 -fno-stack-protector -fno-asynchronous-unwind-tables -I $here/../include"

# Compiles the case's m.c, or its m.cc, with further flags. A flag `-fno-pic` that isn't wanted is answered by a later `-fPIC`.
compiles() {
    [ "$skipped" = no ] || return 0
    compiler=powerpc-linux-gnu-gcc
    [ "${source##*.}" = c ] || compiler=powerpc-linux-gnu-g++
    # shellcheck disable=SC2086 # the flags stand apart by blanks
    (cd "$work/session" && "$compiler" -O1 $flags "$@" -c "$source" -o m.o)
}

# Where the header of a section of the case's module begins, by readelf.
section_header() {
    [ "$skipped" = no ] || return 0
    start=$(powerpc-linux-gnu-readelf -h "$work/session/m.o" | sed -n 's/.*Start of section headers: *\([0-9]*\).*/\1/p')
    number=$(powerpc-linux-gnu-readelf -SW "$work/session/m.o" | sed -n "s/^ *\[ *\([0-9]*\)\] $1 .*/\1/p")
    echo $((start + 40 * number))
}

# Where the entry of a symbol of the case's module begins, by readelf.
symbol_entry() {
    [ "$skipped" = no ] || return 0
    start=$(powerpc-linux-gnu-readelf -SW "$work/session/m.o" | sed -n 's/.* SYMTAB *[0-9a-f]* \([0-9a-f]*\) .*/\1/p')
    number=$(powerpc-linux-gnu-readelf -sW "$work/session/m.o" | sed -n "s/^ *\([0-9]*\): .* $1\$/\1/p")
    echo $((0x$start + 16 * number))
}

# Begins a case with a source of these lines, compiled with the flags after them.
compiled() {
    shows "$1"
    source=$2
    printf '%s\n' "$3" >"$work/session/$source"
    case $source in
    *.c) needs powerpc-linux-gnu-gcc python3 ;;
    *) needs powerpc-linux-gnu-g++ python3 ;;
    esac
    shift 3
    compiles "$@"
}

# `ld` says this on the board that is played, and tools/why says it too, and names these things.
is_refused() {
    console 'ld < m.o\n'
    plays
    difference=
    compare stdout "-> ld < m.o\nld: m.o: $1\nvalue = 0 = 0x0\n-> "
    [ "$skipped" = yes ] || why "$@"
    tell
}

# tools/why says this refusal for the board, and names the things after it.
why() {
    "$here/../tools/why" "$work/session/m.o" >"$work/why" && differs 'tools/why ends with 0'
    grep -qxE "m.o: on (both boards|board $board): $1" "$work/why" || differs "tools/why doesn't say: $1"
    shift
    names_in_why "$@"
}

# tools/why names each of these things.
names_in_why() {
    for thing in "$@"; do
        grep -qF -e "$thing" "$work/why" || differs "tools/why doesn't name $thing: $(cat "$work/why")"
    done
}

# The module loads and its function `f` ends by this exception; tools/why names these things.
traps() {
    console 'ld < m.o\nf\n'
    plays
    difference=
    kind=$1
    shift
    [ "$skipped" = yes ] || {
        sed 's/ at 0x[0-9a-f]*$//' "$work/stdout" | grep -qxF "exception $kind in tShell (0x1)" || differs "no exception $kind"
        "$here/../tools/why" "$work/session/m.o" >"$work/why" && differs 'tools/why ends with 0'
        names_in_why "$@"
    }
    tell
}

compiled 'the source for VxWorks of docs/modules.md runs with its own includes' m.c \
    "$(sed -n '/^```c$/,/^```$/p' "$here/../docs/modules.md" | grep -v '^```')" -Wall -Werror
console 'ld < m.o\nstart 2\ntaskDelay 3\nsemGive due\ntaskDelay 1\n'
ticks 'every 1000 10\n'
plays
ends 0 '-> ld < m.o\nvalue = 2 = 0x2\n-> start 2\nvalue = 0 = 0x0\n-> taskDelay 3\nround 1\nvalue = 0 = 0x0\n-> semGive due\nundefined symbol: due\n-> taskDelay 1\nvalue = 0 = 0x0\n-> ' ''

compiled 'position-independent code is refused' m.c 'int x; int f(void) { return ++x; }' -fPIC
is_refused 'relocation 0 unsupported' R_PPC_REL16_HA '(252)' .text -fno-pic

compiled 'a long call by the procedure linkage table is refused' m.c 'int printf(const char *, ...); int f(void) { return printf("x"); }' -mlongcall
is_refused 'relocation 2 unsupported' R_PPC_PLT16_HA '(31)' 'of printf' -mno-pltseq

compiled 'small data is refused' m.c 'int x; int f(void) { return ++x; }' -meabi -msdata=eabi -G 8
is_refused 'relocation 0 unsupported' R_PPC_EMB_SDA21 '(109)' 'of x' '-mno-sdata -G 0'

compiled 'thread-local data is refused' m.c '__thread int x = 1; int f(void) { return x; }'
is_refused "bad section at $(section_header .tdata)" .tdata __thread

compiled 'a constructor is refused' m.c 'int x; __attribute__((constructor)) void f(void) { x = 1; }'
is_refused "bad section at $(section_header .init_array)" .init_array constructors

compiled 'a symbol that is unique in the process is refused' m.cc 'template <typename T> struct Box { static T value; };
template <typename T> T Box<T>::value = 3;
extern "C" int f() { return Box<int>::value; }'
is_refused "bad symbol at $(symbol_entry _ZN3BoxIiE5valueE)" _ZN3BoxIiE5valueE -fno-gnu-unique

compiled 'a static object of C++ is a constructor' m.cc 'struct A { int v; A() : v(f()) {} static int f(); }; A a; int A::f() { return 7; }' -fno-exceptions
is_refused "bad section at $(section_header .init_array)" .init_array constructors

compiled 'C++ without static objects works' m.cc '#include <stdio.h>
struct Shape { virtual int area() const = 0; };
struct Square : Shape {
    int side;
    explicit Square(int s) : side(s) {}
    int area() const override { return side * side; }
};
template <typename T> T twice(T x) { return x + x; }
extern "C" int f(int n)
{
    Square square(n);
    const Shape &shape = square;
    return printf("area %d\n", twice(shape.area()));
}' -fno-exceptions -fno-rtti -Wall -Werror
console 'ld < m.o\nf 4\n'
plays
ends 0 '-> ld < m.o\nvalue = 2 = 0x2\n-> f 4\narea 32\nvalue = 8 = 0x8\n-> ' ''

compiled 'an object of another machine' m.c 'int x;'
[ "$skipped" = yes ] || words m.o 7f454c46 02010100 00000000 00000000 00010015 00000001 00000000 00000000 00000000 00000000 00000000 00000000 00000000
is_refused 'not ELF at 4' '64 bits'

compiled 'a module that is cut' m.c 'int x = 3;'
[ "$skipped" = yes ] || truncate -s 60 "$work/session/m.o"
is_refused 'short file at 32' 'beyond the end'

compiled 'a name that nothing defines is too far for a call on board 2' m.c 'int nosuch(int); int f(int x) { return nosuch(x) + 1; }'
console 'ld < m.o\n'
plays
difference=
if [ "$board" = 1 ]; then
    compare stdout '-> ld < m.o\nundefined symbol: nosuch\nvalue = 2 = 0x2\n-> '
else
    compare stdout '-> ld < m.o\nld: m.o: relocation 0 out of range\nvalue = 0 = 0x0\n-> '
fi
[ "$skipped" = yes ] || {
    "$here/../tools/why" "$work/session/m.o" >"$work/why" && differs 'tools/why ends with 0'
    names_in_why 'on board 2: relocation 0 out of range' 'of nosuch' 'nosuch: load a module that defines it first'
}
tell

compiled 'long calls load on both boards' m.c 'int nosuch(int); int f(int x) { return nosuch(x) + 1; }' -mlongcall -mno-pltseq
console 'ld < m.o\n'
plays
ends 0 '-> ld < m.o\nundefined symbol: nosuch\nvalue = 2 = 0x2\n-> ' ''

compiled 'a prefetch traps' m.c 'int a[64]; int f(void) { __builtin_prefetch(a); return a[0]; }'
traps illegal dcbt 'in f' '-D__builtin_prefetch'

compiled 'and is left out by a macro' m.c 'int a[64]; int f(void) { __builtin_prefetch(a); return a[0]; }' '-D__builtin_prefetch(...)=((void)0)'
console 'ld < m.o\nf\n'
plays
ends 0 '-> ld < m.o\nvalue = 2 = 0x2\n-> f\nvalue = 0 = 0x0\n-> ' ''

compiled 'a release store traps' m.c '#include <stdatomic.h>
atomic_int x; int f(void) { atomic_store_explicit(&x, 3, memory_order_release); return 0; }'
traps illegal lwsync 'in f' memory_order_seq_cst

compiled 'a store by the default order does not' m.c '#include <stdatomic.h>
atomic_int x; int f(void) { x = 3; return atomic_fetch_add(&x, 2) + x; }'
console 'ld < m.o\nf\n'
plays
ends 0 '-> ld < m.o\nvalue = 2 = 0x2\n-> f\nvalue = 8 = 0x8\n-> ' ''

compiled 'nor does a release store for a processor without lwsync' m.c '#include <stdatomic.h>
atomic_int x; int f(void) { atomic_store_explicit(&x, 3, memory_order_release); return atomic_load_explicit(&x, memory_order_acquire); }' -mcpu=8540 -mno-isel
console 'ld < m.o\nf\n'
plays
ends 0 '-> ld < m.o\nvalue = 2 = 0x2\n-> f\nvalue = 3 = 0x3\n-> ' ''

compiled 'a double without -msoft-float traps' m.c 'int f(int n) { volatile double x = n; return (int)(x * 2.5); }' -mhard-float
traps illegal 'in f' -msoft-float

compiled 'the stack protector is undefined' m.c 'int g(char *); int f(void) { char b[64]; return g(b); } int g(char *b) { return b[0]; }' -fstack-protector-all
console 'ld < m.o\n'
plays
difference=
[ "$skipped" = yes ] || {
    "$here/../tools/why" "$work/session/m.o" >"$work/why" && differs 'tools/why ends with 0'
    names_in_why '__stack_chk_fail: compile with -fno-stack-protector'
}
tell

compiled 'a null pointer reads and writes RAM' m.c 'int f(volatile int *p) { *p = 42; return *p; }'
console 'ld < m.o\nf 0\n'
plays
ends 0 "-> ld < m.o\nvalue = 2 = 0x2\n-> f 0\nvalue = 42 = 0x2a = '*'\n-> " ''

compiled 'a conversion that printf copies takes no word' m.c '#include <stdio.h>
int f(void) { return printf("%f %d\n", 1, 2); }'
console 'ld < m.o\nf\n'
plays
ends 0 '-> ld < m.o\nvalue = 2 = 0x2\n-> f\n%f 1\nvalue = 5 = 0x5\n-> ' ''

shows 'from an exception to a line of C'
source=valve.c
sed -n '/^```c$/,/^```$/p' "$here/../docs/crash.md" | grep -v '^```' >"$work/session/valve.c"
needs powerpc-linux-gnu-gcc powerpc-linux-gnu-addr2line gdb-multiarch
compiles -g
console 'ld < m.o\ntaskSpawn "check", 50, 0, 4000, check\ntaskDelay 2\nmoduleShow\n'
ticks 'every 1000 10\n'
plays
difference=
[ "$skipped" = yes ] || {
    at=$(sed -n 's/^exception access in check (0x3) at 0x//p' "$work/stdout")
    set -- $(grep '^m\.o' "$work/stdout")
    (
        cd "$work/session" || exit
        powerpc-linux-gnu-addr2line -e m.o -j .text -f -i "$(printf '0x%x' "$((0x$at - 0x$3))")" | sed 's|.*/||'
        gdb-multiarch -batch -ex "add-symbol-file m.o -s .text 0x$3 -s .data 0x$4" -ex "info line *0x$at" 2>&1 | grep -o '^Line [0-9]* of'
    ) >"$work/stdout"
}
compare stdout 'open_all\nvalve.c:17\ncheck\nvalve.c:24\nLine 17 of\n'
tell
