# What differs between the boards: where RAM ends, where the gates are, and how many blocks there may be. What each line comes to was
# worked out by hand. The modules of board 2 are in `modules.sh`, and its interrupt routines in `watchdogs.sh`.

shows 'board 1 has 16 MiB of RAM, and then its gates'
of_board_1
rows --board 1 <<'ROWS'
*0xfffffc = 5; *0xfffffc; &taskIdSelf => 5 | 5 | 16777456
*0x1000000 => access fault at 0x01000000
malloc 0x1000000; errnoGet => 0 | 1114113
ROWS

shows 'board 2 has 64 MiB of RAM, and then its gates'
of_board_1
rows --board 2 <<'ROWS'
*0x3fffffc = 5; *0x3fffffc; &taskIdSelf => 5 | 5 | 67109104
*0x4000000 => access fault at 0x04000000
malloc 0x1000000; malloc 16 => 89632 | 16866848
malloc 0x3000000; errnoGet => 0 | 1114113
ROWS

# The gate of `taskIdSelf` on board 1 is RAM of zeros on board 2, and that of board 2 is nothing on board 1.
shows 'a gate of board 1 is no gate on board 2'
of_board_1
console '(0x10000f0)()\n(0x40000f0)()\n'
plays --board 2
ends 0 '-> (0x10000f0)()\n\nexception illegal in tShell (0x1) at 0x010000f0\n-> (0x40000f0)()\nvalue = 1 = 0x1\n-> ' ''

shows 'a gate of board 2 is no gate on board 1'
of_board_1
console '(0x40000f0)()\n(0x10000f0)()\n'
plays --board 1
ends 0 '-> (0x40000f0)()\n\nexception access in tShell (0x1) at 0x040000f0\n-> (0x10000f0)()\nvalue = 1 = 0x1\n-> ' ''

# The stack of the task is between the two blocks.
shows 'blocks and stacks of board 2 are at the least address that has room'
of_board_1
rows --board 2 <<'ROWS'
malloc 16; taskSpawn 0, 100, 0, 4096, taskDelay, 1000; malloc 16 => 89632 | 2 | 93744
ROWS

# At 0x1000 r3 blocks of r4 bytes: `mtctr r3`, the gate of `malloc` in r6 by `lis r6, 0x400` and `ori r6, r6, 0x270`, that often `mr r3,
# r4`, `mtlr r6`, `blrl`, and `bdnz`; then back to the shell by its gate in r6. Of 65,536 blocks, two are stacks.
shows 'as many blocks as board 2 may have'
of_board_1
rows --board 2 <<'ROWS'
*0x1000 = 0x7c6903a6; *0x1004 = 0x3cc00400; *0x1008 = 0x60c60270; *0x100c = 0x7c832378 => 2087256998 | 1019216896 | 1623589488 | 2088969080
*0x1010 = 0x7cc803a6; *0x1014 = 0x4e800021; *0x1018 = 0x4200fff4; *0x101c = 0x3cc00400 => 2093482918 | 1317011489 | 1107361780 | 1019216896
*0x1020 = 0x60c60010; *0x1024 = 0x7cc803a6; *0x1028 = 0x4e800020 => 1623588880 | 2093482918 | 1317011488
(0x1000)(65534, 1) == 0x15e20 + 16 * 65533 => 1
malloc 1; errnoGet; free 0x15e40; malloc 1 => 0 | 1114113 | 0 | 89664
ROWS
