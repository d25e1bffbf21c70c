# The static link, as the gate built it, beside a board that loads the same modules. The words are those of the Power ISA, worked out by
# hand, and so are the addresses: the name in each `ld` takes a block of 16 bytes before its module.

ppcasm=$here/../crates/ppcasm/out/ppcasm
windlink=$here/../crates/windlink/out/windlink

# Runs the link with these words, in the folder of the case, and writes the image as words in hexadecimal digits.
links() {
    status=0
    (cd "$work/session" && exec "$windlink" "$@") >"$work/image" 2>"$work/stderr" || status=$?
    od -A n -v -t x1 "$work/image" | tr -d ' \n' | sed 's/......../&\n/g' >"$work/stdout"
}

# Assembles a text of the case.
module() {
    file "$1.s" "$2"
    (cd "$work/session" && exec "$ppcasm" "$1.s") >"$work/session/$1.o" 2>"$work/stderr"
}

# Two modules with the function `f`, and one with `g`, which calls `f`.
modules() {
    module a '.globl f\nf: li r3, 1\n blr\n .align 16\n'
    module b '.globl f\nf: li r3, 2\n blr\n .align 16\n'
    module c '.globl g\ng: mflr r31\n bl f\n mtlr r31\n blr\n'
}

shows 'three loads, and what the board tells of them'
of_board_1
modules
console 'ld < a.o\nld < b.o\nld < c.o\ng\nmoduleShow\nd(0x15e30, 4, 4)\nd(0x15e50, 4, 4)\nd(0x15e70, 4, 4)\n'
plays
ends 0 "-> ld < a.o\nvalue = 2 = 0x2
-> ld < b.o\nvalue = 3 = 0x3
-> ld < c.o\nvalue = 4 = 0x4
-> g\nvalue = 2 = 0x2
-> moduleShow
MODULE                   ID       TEXT     DATA     BSS     
a.o                             2 00015e30 00000000 00000000
b.o                             3 00015e50 00000000 00000000
c.o                             4 00015e70 00000000 00000000
value = 0 = 0x0
-> d(0x15e30, 4, 4)\n00015e30: 38600001 4e800020 00000000 00000000  *8\`..N.. ........*\nvalue = 0 = 0x0
-> d(0x15e50, 4, 4)\n00015e50: 38600002 4e800020 00000000 00000000  *8\`..N.. ........*\nvalue = 0 = 0x0
-> d(0x15e70, 4, 4)\n00015e70: 7fe802a6 4bffffdd 7fe803a6 4e800020  *....K.......N.. *\nvalue = 0 = 0x0
-> " ''

shows 'the image of the same modules at the same addresses has the same words'
modules
file image.lst 'a.o 0 00015e30 00000000 00000000\nb.o 0 00015e50 00000000 00000000\nc.o 0 00015e70 00000000 00000000\n'
links image.lst .
ends 0 '38600001\n4e800020\n00000000\n00000000\n00000000\n00000000\n00000000\n00000000\n38600002\n4e800020\n00000000\n00000000\n00000000\n00000000\n00000000\n00000000\n7fe802a6\n4bffffdd\n7fe803a6\n4e800020\n' ''

shows 'a call goes to the latest module before it in the list'
module a '.globl f\nf: li r3, 1\n .align 16\n'
module b '.globl f\nf: li r3, 2\n .align 16\n'
module c ' bl f\n .align 16\n'
file image.lst 'a.o 0 00015e30 00000000 00000000\nb.o 0 00015e50 00000000 00000000\nc.o 0 00015e70 00000000 00000000'
links image.lst .
ends 0 '38600001\n00000000\n00000000\n00000000\n00000000\n00000000\n00000000\n00000000\n38600002\n00000000\n00000000\n00000000\n00000000\n00000000\n00000000\n00000000\n4bffffe1\n00000000\n00000000\n00000000\n' ''

# The call goes to 0, from 0x15e74.
shows 'a module later in the list binds nothing'
modules
file image.lst 'c.o 0 00015e70 00000000 00000000\na.o 0 00015e30 00000000 00000000\nb.o 0 00015e50 00000000 00000000\n'
links image.lst .
ends 0 '38600001\n4e800020\n00000000\n00000000\n00000000\n00000000\n00000000\n00000000\n38600002\n4e800020\n00000000\n00000000\n00000000\n00000000\n00000000\n00000000\n7fe802a6\n4bfea18d\n7fe803a6\n4e800020\n' 'windlink: image.lst: line 1: undefined symbol: f\n'

shows 'a list without a line gives no byte'
file image.lst ''
links image.lst .
ends 0 '' ''

# A list with which the link ends without an image: the status, the list, and the message.
refuses_link() {
    modules
    file image.lst "$2"
    links image.lst .
    ends "$1" '' "windlink: $3\n"
}

shows 'a place that is no multiple of the alignment is refused'
refuses_link 12 'a.o 0 00015e38 00000000 00000000\n' 'image.lst: line 1: bad place of text'

shows 'a segment over an opening block is refused'
refuses_link 12 'a.o 0 00014e20 00000000 00000000\n' 'image.lst: line 1: bad place of text'

shows 'an empty segment has address 0'
refuses_link 12 'a.o 0 00015e30 00015e50 00000000\n' 'image.lst: line 1: bad place of data'

shows 'and so has an empty bss'
refuses_link 12 'a.o 0 00015e30 00000000 00000010\n' 'image.lst: line 1: bad place of bss'

shows 'a segment over an earlier one is refused'
refuses_link 12 'a.o 0 00015e30 00000000 00000000\nb.o 0 00015e30 00000000 00000000\n' 'image.lst: line 2: bad place of text'

shows 'a segment beyond the pool is refused'
refuses_link 12 'a.o 0 01000000 00000000 00000000\n' 'image.lst: line 1: bad place of text'

shows 'a line without a word is refused'
refuses_link 7 'a.o 0 00015e30 00000000 00000000\n\n' 'image.lst: line 2 is not understood'

shows 'upper-case digits are refused'
refuses_link 7 'a.o 0 00015e30 00000000 0000000A\n' 'image.lst: line 1 is not understood'

shows 'a module that is missing is named'
refuses_link 2 'a.o 0 00015e30 00000000 00000000\nnone.o 0 00015e50 00000000 00000000\n' './none.o: not found'

shows 'the list is read before any module'
refuses_link 7 'none.o 0 00015e30 00000000 00000000\nnone.o\n' 'image.lst: line 2 is not understood'

shows 'a list that is missing is named'
links none.lst .
ends 2 '' 'windlink: none.lst: not found\n'

shows 'a file that is no module is refused'
file text.o 'no module'
file image.lst 'text.o 0 00015e30 00000000 00000000\n'
links image.lst .
ends 10 '' 'windlink: image.lst: line 1: short file at 9\n'

shows 'a module that is too long is refused'
truncate -s 4194305 "$work/session/big.o"
file image.lst 'big.o 0 00015e30 00000000 00000000\n'
links image.lst .
ends 8 '' 'windlink: ./big.o: too long\n'

# The distance is 2^26 bytes too long.
shows 'a relocation out of range is refused after all places'
modules
module far ' bl f+0x4000000\n .align 16\n'
file image.lst 'a.o 0 00015e30 00000000 00000000\nfar.o 0 00015e50 00000000 00000000\nc.o 0 00015e70 00000000 00000000\n'
links image.lst .
ends 11 '' 'windlink: image.lst: line 2: relocation 0 out of range (type 10, f)\n'

shows 'a module that can not be read is a fault of reading'
mkdir "$work/session/folder.o"
file image.lst 'folder.o 0 00015e30 00000000 00000000\n'
links image.lst .
ends 4 '' 'windlink: reading failed: ./folder.o\n'

shows 'an image that can not be written is a fault of writing'
modules
file image.lst 'a.o 0 00015e30 00000000 00000000\n'
status=0
: >"$work/stdout"
(cd "$work/session" && exec "$windlink" image.lst .) >/dev/full 2>"$work/stderr" || status=$?
ends 5 '' 'windlink: writing failed\n'

# The names are those of two modules, in symbol order; a weak one is left out, and so is a call of the kernel.
shows 'each undefined name is told, and the image stays'
module a '.globl f\nf: bl g\n bl h\n bl taskDelay\n .align 16\n'
module b ' bl f\n bl g\n .align 16\n'
file image.lst 'a.o 0 00015e30 00000000 00000000\nb.o 0 00015e50 00000000 00000000\n'
links image.lst .
: >"$work/stdout"
ends 0 '' "$(printf 'windlink: image.lst: line %s: undefined symbol: %s\\n' 1 g 1 h 2 g)"

# 200 sections over the same 1,000,000 bytes: their places are refused before any of them is copied.
shows 'a module that needs more memory than a board has is refused within 64 MiB'
python3 "$here/many_sections.py" 200 1000000 >"$work/session/many.o"
file image.lst 'many.o 0 00015e30 00000000 00000000\n'
status=0
(ulimit -v 65536 && cd "$work/session" && exec "$windlink" image.lst .) >"$work/stdout" 2>"$work/stderr" || status=$?
ends 12 '' 'windlink: image.lst: line 1: bad place of text\n'

shows 'and is listed within 64 MiB'
python3 "$here/many_sections.py" 200 1000000 >"$work/session/many.o"
status=0
(ulimit -v 65536 && cd "$work/session" && exec "$ppcasm" --list many.o) >"$work/stdout" 2>"$work/stderr" || status=$?
ends 0 '00000000 60000000 ori r0, r0, 0\n' ''

shows 'a list has at most 256 lines'
awk 'BEGIN { for (i = 0; i < 257; i++) print "none.o 0 00000000 00000000 00000000" }' >"$work/session/image.lst"
links image.lst .
ends 7 '' 'windlink: image.lst: line 257 is not understood\n'

shows '256 lines are read'
awk 'BEGIN { for (i = 0; i < 256; i++) print "none.o 0 00000000 00000000 00000000" }' >"$work/session/image.lst"
links image.lst .
ends 2 '' 'windlink: ./none.o: not found\n'

shows 'a call with other words is told the usage'
links --help
ends 1 '' 'usage: windlink LIST DIR\n'
