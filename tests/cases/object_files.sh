# An object file that GNU as 2.40 for `powerpc-linux-gnu` wrote, as it is and with other bytes. What is in it is what its own tools show; what is
# wrong with the others was worked out by hand from the rules.

# It has sections `.text`, `.data`, `.bss`, `.debug_info` and `.debug_line`, local, global, weak, absolute, common and undefined symbols, and
# relocations of each section that has bytes of its own. Its section headers begin at 476, its symbols at 116, the relocations of `.text`
# at 356, those of `.data` at 368.
put_object() {
    words "$1" \
    7f454c46 01020100 00000000 00000000 00010014 00000001 00000000 00000000 000001dc 00000000 00340000 00000028 \
    000c000b 48000001 60000000 60000000 4e800020 00000000 00070008 00000000 00000000 00000019 00030000 00130401 \
    fb0e0d00 01010101 00000001 00000100 00000000 00000000 00000000 00000000 00000000 00000000 00000000 00000000 \
    03000001 00000000 00000000 00000000 03000003 00000000 00000000 00000000 03000005 00000001 00000004 00000000 \
    00000003 00000006 00000378 00000000 0000fff1 00000000 00000000 00000000 03000006 00000000 00000000 00000000 \
    03000008 0000000b 00000000 00000010 12000001 0000000d 00000000 00000000 10000000 00000014 00000000 00000004 \
    11000003 00000016 00000000 00000000 20000005 00000018 00000004 0000000c 1100fff2 006e6561 7200706f 72740066 \
    006e6f73 75636800 67007700 73686172 65640000 00000000 0000090a 00000000 00000000 00000801 00000004 00000000 \
    00000a01 00000000 002e7379 6d746162 002e7374 72746162 002e7368 73747274 6162002e 72656c61 2e746578 74002e72 \
    656c612e 64617461 002e6273 73002e72 656c612e 64656275 675f696e 666f002e 64656275 675f6c69 6e650000 00000000 \
    00000000 00000000 00000000 00000000 00000000 00000000 00000000 00000000 00000000 00000020 00000001 00000006 \
    00000000 00000034 00000010 00000000 00000000 00000001 00000000 0000001b 00000004 00000040 00000000 00000164 \
    0000000c 00000009 00000001 00000004 0000000c 0000002b 00000001 00000003 00000000 00000044 00000008 00000000 \
    00000000 00000001 00000000 00000026 00000004 00000040 00000000 00000170 0000000c 00000009 00000003 00000004 \
    0000000c 00000031 00000008 00000003 00000000 00000050 00000008 00000000 00000000 00000008 00000000 0000003b \
    00000001 00000000 00000000 00000050 00000004 00000000 00000000 00000001 00000000 00000036 00000004 00000040 \
    00000000 0000017c 0000000c 00000009 00000006 00000004 0000000c 00000047 00000001 00000000 00000000 00000054 \
    0000001d 00000000 00000000 00000001 00000000 00000001 00000002 00000000 00000000 00000074 000000d0 0000000a \
    00000008 00000004 00000010 00000009 00000003 00000000 00000000 00000144 0000001f 00000000 00000000 00000001 \
    00000000 00000011 00000003 00000000 00000000 00000188 00000053 00000000 00000000 00000001 00000000
}

# The name takes the first block, at 0x15e20: the text is at 0x15e30, the data at 0x15e40, the bss at 0x15e50. The branch goes back to 0.
shows 'what GNU as wrote is loaded: its sections, its global and weak symbols, its relocations'
of_board_1
put_object o
rows <<'ROWS'
ld < o => undefined symbol: nosuch | 2
&f == 0x15e30; &g == 0x15e40; &w == 0x15e50; &shared == 0x15e58 => 1 | 1 | 1 | 1
f1 = &f; *f1 == 0x4bfea1d1; *(f1+4) == 0x60000000; *(f1+8) == 0x60000000; *(f1+12) == 0x4e800020 => new symbol "f1" added to symbol table. | 89648 | 1 | 1 | 1 | 1
g == &f + 4; *(&g+4); w; shared => 1 | 458760 | 0 | 0
near => undefined symbol: near
port => undefined symbol: port
moduleShow => MODULE                   ID       TEXT     DATA     BSS      | o                               2 00015e30 00015e40 00015e50 | 0
ROWS

shows 'its local symbols are added if the mode asks for them'
of_board_1
put_object o
rows <<'ROWS'
ld 1, 0, "o" => undefined symbol: nosuch | 2
&near == &g + 4; near; port => 1 | 458760 | 888
ROWS

# A row has a place in the file, the bytes that are put there, and what is wrong then. The file of each row has its number as a name.
shows 'the first rule that fails refuses the file'
put_object o
: >"$work/table"
count=0
while read -r at piece arrow wrong; do
    count=$((count + 1))
    cp "$work/session/o" "$work/session/$count"
    patch "$count" "$at" "$piece"
    printf '%s\n' "ld < $count $arrow ld: $count: $wrong | 0" >>"$work/table"
done <<'PLACES'
0 aa => not ELF at 0
1 aa => not ELF at 1
2 aa => not ELF at 2
3 aa => not ELF at 3
4 aa => not ELF at 4
5 aa => not ELF at 5
6 aa => not ELF at 6
18 0015 => not PowerPC at 18
16 0002 => not relocatable at 16
16 00020015 => not PowerPC at 18
46 0029 => bad section at 46
48 0000 => bad section at 48
50 000c => bad section at 50
48 1001 => too many entries at 48
48 1000 => short file at 32
32 000001dd => short file at 32
532 ffffffff => short file at 532
50 0001 => bad section at 516
476 ffffffff => bad section at 476
596 00000053 => bad section at 596
884 00000002 => bad section at 876
524 00000406 => bad section at 516
524 00000806 => bad section at 516
548 00000003 => bad section at 516
696 01000001 => bad section at 676
800 00000002 => bad section at 796
872 0000000f => bad section at 836
856 000000d1 => bad section at 836
860 00000001 => bad section at 836
860 0000000b0000000800000004000000100000000900000002 => bad section at 876
244 0000001f => bad symbol at 244
256 32 => bad symbol at 244
256 16 => bad symbol at 244
258 000c => bad symbol at 244
248 00000011 => bad symbol at 244
312 00000003 => bad symbol at 308
316 01000001 => bad symbol at 308
584 0000000c => bad section at 556
560 00000009 => bad section at 556
592 00000008 => bad section at 556
576 0000000b => bad section at 556
580 0000000a => bad section at 556
584 00000005 => bad relocation at 356
360 00000d0a => bad relocation at 356
360 0000060a => bad relocation at 356
356 fffffffe => bad relocation at 356
356 0000000d => bad relocation at 356
368 00000005 => bad relocation at 368
PLACES
rows <"$work/table"

shows 'what no rule names is taken'
of_board_1
put_object o
: >"$work/table"
count=1
while read -r at piece; do
    count=$((count + 1))
    cp "$work/session/o" "$work/session/$count"
    patch "$count" "$at" "$piece"
    printf '%s\n' "ld < $count => undefined symbol: nosuch | $count" >>"$work/table"
done <<'PLACES'
692 ffffffff
548 00000000
116 ffffffffffffffffffffffffffffffff
248 00000010
356 0000000c
584 00000006
760 00000009
PLACES
rows <"$work/table"

# The symbols of the first are 65,537, and its file is as long as that asks for.
shows 'too many symbols, and a file that is cut at any of its bytes'
put_object most
patch most 856 00100010
patch most 1048999 00
put_object o
printf '%s\n' 'ld < most => ld: most: too many entries at 836 | 0' >"$work/table"
for count in 0 6 18 32 51 52 53 115 475 476 516 900 954 955; do
    head -c "$count" "$work/session/o" >"$work/session/$count"
    [ "$count" -lt 52 ] && at=$count || at=32
    printf '%s\n' "ld < $count => ld: $count: short file at $at | 0" >>"$work/table"
done
rows <"$work/table"
