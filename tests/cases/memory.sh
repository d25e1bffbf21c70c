# Blocks of memory, and symbols. What each line comes to was worked out by hand. The first block that is given lies at 0x15e20, which is
# 89632.

# At 0x1000 r3 blocks of r4 bytes, and at 0x1040 r3 frees of blocks from r4 on that lie r5 bytes apart: `mtctr r3`, that often `mr
# r3, r4`, the call, `add r4, r4, r5` in the second, and `bdnz`, and back to the shell.
functions='*0x1000 = *0x1040 = 0x7c6903a6; *0x1004 = *0x1044 = 0x7c832378; *0x1008 = 0x49000273; *0x1048 = 0x49000283 => 2087256998 | 2088969080 | 1224737395 | 1224737411
*0x104c = 0x7c842a14; *0x100c = 0x4200fff8; *0x1050 = 0x4200fff4; *0x1010 = *0x1054 = 0x49000012 => 2089036308 | 1107361784 | 1107361780 | 1224736786'

# Of 16,384 blocks, the stacks of the shell and of the interrupts are two.
shows 'as many blocks as there may be'
of_board_1
rows <<ROWS
$functions
(0x1000)(16382, 1) == 0x15e20 + 16 * 16381 => 1
malloc 1; errnoGet; malloc 0 - 1; errnoGet => 0 | 1114113 | 0 | 1114113
memalign 3, 1; errnoGet => 0 | 1114115
free 0x15e40; malloc 0 - 1; errnoGet; malloc(17) == 0x15e20 + 16 * 16382; malloc 1 => 0 | 0 | 1114113 | 1 | 0
ROWS

# As many blocks of 16 bytes as there may be; each second one is freed, and then the others: one hole is left.
shows 'as many holes as there may be, which join'
of_board_1
rows <<ROWS
$functions
(0x1000)(16382, 16) == 0x15e20 + 16 * 16381 => 1
(0x1040)(8191, 0x15e20, 32) => 0
malloc(17) == 0x15e20 + 16 * 16382; malloc 16; malloc 16; free 0x15e20; free 0x15e40 => 1 | 89632 | 89664 | 0 | 0
(0x1040)(8191, 0x15e30, 32) => 0
malloc(16 * 16382) => 89632
ROWS

# 1,024 blocks of 256 bytes. Where each second one is free there is room for 256 bytes and no more; each further one joins two holes.
shows 'blocks that are freed join the holes beside them'
of_board_1
rows <<ROWS
$functions
(0x1000)(1024, 256) == 0x15e20 + 256 * 1023 => 1
(0x1040)(512, 0x15e20, 512) => 0
malloc(257) == 0x15e20 + 256 * 1024 => 1
malloc 256; free 0x15e20 => 89632 | 0
(0x1040)(512, 0x15f20, 512) => 0
malloc 0x40000 => 89632
malloc(1) == 0x15e20 + 256 * 1024 + 272 => 1
ROWS

shows 'a block is freed by its address and its class'
rows <<'ROWS'
malloc 40; "abc"; malloc 1 => 89632 | 89680 | 89696
free 0x15e28; errnoGet; free 0x10000; errnoGet; free 0x15e50; errnoGet => -1 | 1114114 | -1 | 1114114 | -1 | 1114114
free 0; free 0x15e20; free 0x15e20 => 0 | 0 | -1
malloc 49; malloc 48; memalign 128, 16 => 89712 | 89632 | 89856
memalign 0, 1; memalign 0x20000, 1; errnoGet => 0 | 0 | 1114115
ROWS

# 33 * 'a' + 'b' is 33 * 'b' + 'A'.
shows 'the newest of each name counts, also of two names of one hash'
rows <<'ROWS'
symAdd 0, "ab", 1001, 4; symAdd 0, "bA", 1002, 4; ab; bA => 0 | 0 | 1001 | 1002
symAdd 0, "ab", 1003, 4; symAdd 0, "bA", 1004, 4; ab; bA => 0 | 0 | 1003 | 1004
symAdd 1, "ab", 1, 4; errnoGet; symAdd 0, "", 1, 4; errnoGet; symAdd 0, "ab", 1, 5; errnoGet; ab => -1 | 3997697 | -1 | 1114116 | -1 | 1835010 | 1003
ROWS

shows 'names of 1, 252 and 253 bytes'
long=$(printf '%252s' '' | tr ' ' a)
rows <<ROWS
a=7 => new symbol "a" added to symbol table. | 7
$long=8 => new symbol "$long" added to symbol table. | 8
a$long=9 => new symbol "a$long" added to symbol table. | 9
a => 7
$long => 8
a$long => 9
aa$long => undefined symbol: aa$long
ROWS
