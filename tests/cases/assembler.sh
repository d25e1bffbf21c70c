# The assembler, as the gate built it: a function from its text to its call, what it lists and refuses, and the modules of examples.
# The words are those of the Power ISA, worked out by hand.

ppcasm=$here/../crates/ppcasm/out/ppcasm

# Runs the assembler with these words, in the folder of the case.
assembles() {
    status=0
    (cd "$work/session" && exec "$ppcasm" "$@") >"$work/stdout" 2>"$work/stderr" || status=$?
}

shows 'an assembled function is loaded and called'
file f.s '.globl f\nf: li r3, 7\n blr\n'
assembles f.s
cp "$work/stdout" "$work/session/f.o"
console 'ld < f.o\nf\n'
plays
ends 0 '-> ld < f.o\nvalue = 2 = 0x2\n-> f\nvalue = 7 = 0x7\n-> ' ''

shows 'a module is listed'
file f.s '.globl f\nf: li r3, 7\n blr\n'
assembles f.s
cp "$work/stdout" "$work/session/f.o"
assembles --list f.o
ends 0 '00000000 38600007 addi r3, r0, 7\n00000004 4e800020 bclr 20, 0\n' ''

shows 'the first bad line is named with its cause, the column and the reason'
file bad.s 'nop\nf:\nlwzu r3, 0(r0)\n'
assembles bad.s
ends 7 '' "ppcasm: bad.s: line 3: no such instruction, column 1: 'lwzu' is no instruction of the processor with these operands\n"

shows 'a line that is not understood is named with its first bad token'
file bad.s 'f: li r3, 7\n ori r3, r4, 70000\n'
assembles bad.s
ends 7 '' 'ppcasm: bad.s: line 2: not understood, column 14: 70000 is above 65535\n'

shows 'a file that can not be read is named'
mkdir "$work/session/folder.s"
assembles folder.s
ends 4 '' 'ppcasm: reading failed: folder.s\n'

shows 'a call for help is told both forms'
assembles --help
ends 1 '' 'usage: ppcasm FILE\n       ppcasm --list FILE\n'

for source in "$here"/../examples/*/*.s; do
    shows "a module beside a text is what the text is assembled to: $(basename "$source")"
    cp "$source" "$work/session"
    assembles "$(basename "$source")"
    cmp -s "$work/stdout" "${source%.s}.o" && : >"$work/stdout"
    ends 0 '' ''
done
