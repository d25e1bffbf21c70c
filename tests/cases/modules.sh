# Modules that are loaded and unloaded during a run. The object files are made by the GNU assembler for PowerPC; each holds what is
# said above it.

# 16 bytes of code, with the global `f` at their start.
put_f() {
    words "$1" \
    7f454c46 01020100 00000000 00000000 00010014 00000001 00000000 00000000 00000098 00000000 00340000 00000028 00050004 \
    60000000 60000000 60000000 4e800020 00000000 00000000 00000000 00000000 00000000 00000000 00000000 03000001 00000001 \
    00000000 00000000 10000001 00660000 2e73796d 74616200 2e737472 74616200 2e736873 74727461 62002e74 65787400 00000000 \
    00000000 00000000 00000000 00000000 00000000 00000000 00000000 00000000 00000000 0000001b 00000001 00000006 00000000 \
    00000034 00000010 00000000 00000000 00000001 00000000 00000001 00000002 00000000 00000000 00000044 00000030 00000003 \
    00000002 00000004 00000010 00000009 00000003 00000000 00000000 00000074 00000003 00000000 00000000 00000001 00000000 \
    00000011 00000003 00000000 00000000 00000077 00000021 00000000 00000000 00000001 00000000
}

# 16 bytes of code that begin with a branch to `f`, relocated by R_PPC_REL24.
put_caller() {
    words "$1" \
    7f454c46 01020100 00000000 00000000 00010014 00000001 00000000 00000000 000000ac 00000000 00340000 00000028 00060005 \
    48000001 60000000 60000000 4e800020 00000000 00000000 00000000 00000000 00000000 00000000 00000000 03000001 00000001 \
    00000000 00000000 10000000 00660000 00000000 0000020a 00000000 002e7379 6d746162 002e7374 72746162 002e7368 73747274 \
    6162002e 72656c61 2e746578 74000000 00000000 00000000 00000000 00000000 00000000 00000000 00000000 00000000 00000000 \
    00000000 00000020 00000001 00000006 00000000 00000034 00000010 00000000 00000000 00000001 00000000 0000001b 00000004 \
    00000040 00000000 00000078 0000000c 00000003 00000001 00000004 0000000c 00000001 00000002 00000000 00000000 00000044 \
    00000030 00000004 00000002 00000004 00000010 00000009 00000003 00000000 00000000 00000074 00000003 00000000 00000000 \
    00000001 00000000 00000011 00000003 00000000 00000000 00000084 00000026 00000000 00000000 00000001 00000000
}

# A word with the global `g` at it, relocated by R_PPC_ADDR32 with the symbol `nosuch` and the addend 7.
put_g() {
    words "$1" \
    7f454c46 01020100 00000000 00000000 00010014 00000001 00000000 00000000 000000b8 00000000 00340000 00000028 00060005 \
    00000000 00000000 00000000 00000000 00000000 00000000 00000000 00000000 03000001 00000001 00000000 00000000 10000001 \
    00000003 00000000 00000000 10000000 0067006e 6f737563 68000000 00000000 00000301 00000007 002e7379 6d746162 002e7374 \
    72746162 002e7368 73747274 6162002e 72656c61 2e646174 61000000 00000000 00000000 00000000 00000000 00000000 00000000 \
    00000000 00000000 00000000 00000000 00000020 00000001 00000003 00000000 00000034 00000004 00000000 00000000 00000001 \
    00000000 0000001b 00000004 00000040 00000000 00000084 0000000c 00000003 00000001 00000004 0000000c 00000001 00000002 \
    00000000 00000000 00000038 00000040 00000004 00000002 00000004 00000010 00000009 00000003 00000000 00000000 00000078 \
    0000000a 00000000 00000000 00000001 00000000 00000011 00000003 00000000 00000000 00000090 00000026 00000000 00000000 \
    00000001 00000000
}

# 16 bytes of code, and two sections of 16 MiB without bytes in the file, all with the alignment 16.
put_big() {
    words "$1" \
    7f454c46 01020100 00000000 00000000 00010014 00000001 00000000 00000000 00000090 00000000 00340000 00000028 00070006 \
    00000000 00000000 00000000 60000000 60000000 60000000 4e800020 00000000 00000000 00000000 00000000 00002e74 65787400 \
    2e627373 002e6d6f 7265002e 73796d74 6162002e 73747274 6162002e 73687374 72746162 00000000 00000000 00000000 00000000 \
    00000000 00000000 00000000 00000000 00000000 00000000 00000000 00000001 00000001 00000006 00000000 00000040 00000010 \
    00000000 00000000 00000010 00000000 00000007 00000008 00000003 00000000 00000050 01000000 00000000 00000000 00000010 \
    00000000 0000000c 00000008 00000003 00000000 00000050 01000000 00000000 00000000 00000010 00000000 00000012 00000002 \
    00000000 00000000 00000050 00000010 00000005 00000001 00000004 00000010 0000001a 00000003 00000000 00000000 00000060 \
    00000001 00000000 00000000 00000001 00000000 00000022 00000003 00000000 00000000 00000061 0000002c 00000000 00000000 \
    00000001 00000000
}

# 16 bytes of code that begin with a branch to `printf`, relocated by R_PPC_REL24.
put_print_caller() {
    words "$1" \
    7f454c46 01020100 00000000 00000000 00010014 00000001 00000000 00000000 000000b0 00000000 00340000 00000028 00060005 \
    00000000 00000000 00000000 48000001 60000000 60000000 4e800020 00000000 0000010a 00000000 00000000 00000000 00000000 \
    00000000 00000001 00000000 00000000 10000000 00707269 6e746600 002e7465 7874002e 72656c61 2e746578 74002e73 796d7461 \
    62002e73 74727461 62002e73 68737472 74616200 00000000 00000000 00000000 00000000 00000000 00000000 00000000 00000000 \
    00000000 00000000 00000001 00000001 00000006 00000000 00000040 00000010 00000000 00000000 00000010 00000000 00000007 \
    00000004 00000040 00000000 00000050 0000000c 00000003 00000001 00000004 0000000c 00000012 00000002 00000000 00000000 \
    0000005c 00000020 00000004 00000001 00000004 00000010 0000001a 00000003 00000000 00000000 0000007c 00000008 00000000 \
    00000000 00000001 00000000 00000022 00000003 00000000 00000000 00000084 0000002c 00000000 00000000 00000001 00000000
}

shows 'a reference is bound to the newest global of its name, and stays so when that is unloaded'
of_board_1
put_f a.o
put_f b.o
put_caller c.o
console 'ld < a.o\nld < b.o\nld < c.o\nunld 3\n&f\n*0x15e70\n'
plays
ends 0 '-> ld < a.o\nvalue = 2 = 0x2\n-> ld < b.o\nvalue = 3 = 0x3\n-> ld < c.o\nvalue = 4 = 0x4\n-> unld 3\nvalue = 0 = 0x0\n-> &f\nvalue = 89648 = 0x15e30\n-> *0x15e70\nvalue = 1275068385 = 0x4bffffe1\n-> ' ''

shows 'on board 2 modules are at the end of RAM, each below the one before'
of_board_1
put_f a.o
put_f b.o
put_caller c.o
console 'ld < a.o\nld < b.o\nld < c.o\nunld 3\n&f\n*0x3ffffd0\n'
plays --board 2
ends 0 '-> ld < a.o\nvalue = 2 = 0x2\n-> ld < b.o\nvalue = 3 = 0x3\n-> ld < c.o\nvalue = 4 = 0x4\n-> unld 3\nvalue = 0 = 0x0\n-> &f\nvalue = 67108848 = 0x3fffff0\n-> *0x3ffffd0\nvalue = 1207959569 = 0x48000011\n-> ' ''

# The text of `big.o` is the last 16 bytes of RAM, its bss 32 MiB below, and `g.o` would be 32 bytes below the middle of RAM. The gates are
# out of the reach of a branch from there.
shows 'on board 2 a module too far below the gates is refused'
of_board_1
put_big big.o
put_print_caller g.o
console 'ld < big.o\nld < g.o\nmoduleShow\n'
plays --board 2
ends 0 '-> ld < big.o\nvalue = 2 = 0x2\n-> ld < g.o\nld: g.o: relocation 0 out of range\nvalue = 0 = 0x0\n-> moduleShow\nMODULE                   ID       TEXT     DATA     BSS     \nbig.o                           2 03fffff0 00000000 01fffff0\nvalue = 0 = 0x0\n-> ' ''

shows 'of three modules with one name the newest answers; after it, the oldest'
put_f a.o
put_f b.o
put_f c.o
console 'ld < a.o\nld < b.o\nld < c.o\n&f\nunld 3\n&f\nunld 4\n&f\n'
plays
ends 0 '-> ld < a.o\nvalue = 2 = 0x2\n-> ld < b.o\nvalue = 3 = 0x3\n-> ld < c.o\nvalue = 4 = 0x4\n-> &f\nvalue = 89712 = 0x15e70\n-> unld 3\nvalue = 0 = 0x0\n-> &f\nvalue = 89712 = 0x15e70\n-> unld 4\nvalue = 0 = 0x0\n-> &f\nvalue = 89648 = 0x15e30\n-> ' ''

shows 'an undefined symbol is told, and counts as 0'
put_g g.o
console 'ld < g.o\ng\nunld "g.o"\ng\n'
plays
ends 0 '-> ld < g.o\nundefined symbol: nosuch\nvalue = 2 = 0x2\n-> g\nvalue = 7 = 0x7\n-> unld "g.o"\nvalue = 0 = 0x0\n-> g\nundefined symbol: g\n-> ' ''

shows 'modules are read from the folder that the words give'
mkdir "$work/session/m"
put_f m/a.o
console 'ld < a.o\nld < b.o\n'
plays --modules m
ends 0 '-> ld < a.o\nvalue = 2 = 0x2\n-> ld < b.o\nld: b.o: not found\nvalue = 0 = 0x0\n-> ' ''

shows 'a module that is not there goes on, and is told by its error number'
console 'ld < a.o\nerrnoGet\n'
plays
ends 0 '-> ld < a.o\nld: a.o: not found\nvalue = 0 = 0x0\n-> errnoGet\nvalue = 1900545 = 0x1d0001\n-> ' ''

shows 'a name that is no text in UTF-8 is that of no file'
console 'ld < \0377\n'
plays
ends 0 '-> ld < \0377\nld: \0377: not found\nvalue = 0 = 0x0\n-> ' ''

shows 'a module of 4 MiB is read, and one of a byte more is too long'
blanks most 4194304
blanks more 4194305
console 'ld < most\nld < more\n'
plays
ends 0 '-> ld < most\nld: most: not ELF at 0\nvalue = 0 = 0x0\n-> ld < more\nld: more: too long\nvalue = 0 = 0x0\n-> ' ''

# Plays a session that loads the first bytes of a file, for each length below that of the file, then looks for a module and for a
# symbol, and loads the whole. Up to the length of the header the file ends at the cut; after that, what is missing is told at the
# header's field for the place of the section headers.
plays_cuts() {
    file=$1
    length=$2
    symbol=$3
    undefined=$4
    cut=0
    lines=
    written=
    while [ "$cut" -lt "$length" ]; do
        head -c "$cut" "$work/session/$file" >"$work/session/$cut.o"
        [ "$cut" -lt 52 ] && at=$cut || at=32
        lines="${lines}ld < $cut.o\\n"
        written="${written}-> ld < $cut.o\\nld: $cut.o: short file at $at\\nvalue = 0 = 0x0\\n"
        cut=$((cut + 1))
    done
    console "${lines}moduleShow\\n&$symbol\\nld < $file\\n"
    plays
    ends 0 "${written}-> moduleShow\\nMODULE                   ID       TEXT     DATA     BSS     \\nvalue = 0 = 0x0\\n-> &$symbol\\nundefined symbol: $symbol\\n-> ld < $file\\nundefined symbol: $undefined\\nvalue = 2 = 0x2\\n-> " ''
}

shows 'a module that is cut after any of its bytes changes nothing'
of_board_1
put_caller c.o
plays_cuts c.o 412 f f

shows 'nor does a module with a symbol of its own and an undefined one'
put_g g.o
plays_cuts g.o 424 g nosuch

shows 'a module that cannot be read ends the run, after the steps that were made'
console '1+2\nld < .\n3\n'
plays
ends 4 '-> 1+2\nvalue = 3 = 0x3\n-> ld < .\n' 'windplay: reading failed\n'

shows 'a name that can be read is asked for before its step: the run ends with the limit before that'
console '1+2\nld < .\n'
plays --limit 8
ends 3 '-> 1+2\nvalue = 3 = 0x3\n-> ld < .\n' 'windplay: limit of 8 steps reached\n'

shows 'the mode says which symbols are added; a name that cannot be read is refused'
put_f a.o
console 'ld 0xffffffff, 0, "a.o"\nf\nld 1, 0, "a.o"; &f\nld 0, 0, 0\nerrnoGet\nld 0, 0, ""\n'
plays
ends 0 '-> ld 0xffffffff, 0, "a.o"\nvalue = 2 = 0x2\n-> f\nundefined symbol: f\n-> ld 1, 0, "a.o"; &f\nvalue = 3 = 0x3\nvalue = 89680 = 0x15e50\n-> ld 0, 0, 0\nvalue = -1 = 0xffffffff\n-> errnoGet\nvalue = 1114116 = 0x110004\n-> ld 0, 0, ""\nvalue = -1 = 0xffffffff\n-> ' ''

# The file has 512 KiB. Each of 2,048 section headers says that its section is the whole file, so the text segment needs 1 GiB. RAM
# has 16 MiB.
shows 'a module whose sections overlap is refused within 256 MiB of address space'
{
    bytes 7f454c46 01020100 00000000 00000000 00010014 00000001 00000000 00000000 00000034 00000000 00340000 00000028 \
        08020001
    bytes 00000000 00000000 00000000 00000000 00000000 00000000 00000000 00000000 00000000 00000000
    bytes 00000000 00000003 00000000 00000000 00000034 00000001 00000000 00000000 00000001 00000000
} >"$work/session/big"
bytes 00000000 00000001 00000002 00000000 00000000 00080000 00000000 00000000 00000001 00000000 >"$work/headers"
for _ in 1 2 3 4 5 6 7 8 9 10 11; do
    cat "$work/headers" "$work/headers" >"$work/twice"
    mv "$work/twice" "$work/headers"
done
cat "$work/headers" >>"$work/session/big"
dd if=/dev/zero of="$work/session/big" bs=1 count=1 seek=524287 conv=notrunc 2>"$work/log"
console 'ld < big\n1+2\n'
plays_within 262144
ends 0 '-> ld < big\nld: big: no room\nvalue = 0 = 0x0\n-> 1+2\nvalue = 3 = 0x3\n-> ' ''
