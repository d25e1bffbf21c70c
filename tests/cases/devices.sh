# The devices of the board: a latch in slot 0, a queue of bytes in slot 1, a counter of events in slot 2. Each slot has
# 0x1000 bytes from 0xe0000000 on, and a device takes whole words at multiples of 4.

shows 'a latch keeps its word, beside a counter that adds'
console '*0xe0000000 = 7\n*0xe0002000 = 5; *0xe0002000 = 6; *0xe0002000\n*0xe0000000\n'
plays
ends 0 '-> *0xe0000000 = 7
value = 7 = 0x7
-> *0xe0002000 = 5; *0xe0002000 = 6; *0xe0002000
value = 5 = 0x5
value = 6 = 0x6
value = 11 = 0xb
-> *0xe0000000
value = 7 = 0x7
-> ' ''

shows 'an empty slot, and a word at an odd address'
console '*0xe0003000\n*0xe0000002\n'
plays
ends 0 '-> *0xe0003000
access fault at 0xe0003000
-> *0xe0000002
access fault at 0xe0000002
-> ' ''

shows 'each word of a latch, a counter that wraps, and words that no device has'
rows <<'ROWS'
*0xe0000000 = 1; *0xe0000004 = 2; *0xe0000008 = 3; *0xe000000c = -1; *0xe0000010 = 5; *0xe0000ffc = 6 => 1 | 2 | 3 | -1 | 5 | 6
*0xe0000000; *0xe0000004; *0xe0000008; *0xe000000c; *0xe0000010; *0xe0000ffc => 1 | 2 | 3 | -1 | 0 | 0
*0xe0001004; *0xe0002000 => 0 | 0
*0xe0002000 = 5; *0xe0002000; *0xe0002000 = -1; *0xe0002000 => 5 | 5 | -1 | 4
*0xe0002008 = 1; *0xe0002000; *0xe0002004; *0xe0002004 = 9; *0xe0002000 => 1 | 4 | 0 | 9 | 0
*0xe0002000 = 5; *0xe0002000 += 2; *0xe0002000 => 5 | 7 | 12
*0xe0000001 => access fault at 0xe0000001
*0xe0000ffe => access fault at 0xe0000ffe
*0xe0003000 = 1 => access fault at 0xe0003000
*0xe0003004 => access fault at 0xe0003004
*0xe0010000 => access fault at 0xe0010000
*0xdffffffc = 1 => access fault at 0xdffffffc
*0xfffffffc => access fault at 0xfffffffc
ROWS

# At 0x1000 a store of the byte r4 to the queue, as often as r3 says.
shows 'a byte queue keeps 64 bytes, and gives them in their order'
rows <<'ROWS'
*0xe0001000; *0xe0001004; *0xe0001004 = 7; *0xe0001004 => 0 | 0 | 7 | 0
*0xe0001000 = 0x141; *0xe0001004; *0xe0001008; *0xe0001000; *0xe0001000; *0xe0001004 => 321 | 1 | 0 | 65 | 0 | 0
*0xe0001000 = 65; *0xe0001000 = 66; *0xe0001000 - *0xe0001000 => 65 | 66 | -1
*0x1000 = 0x7c6903a6; *0x1004 = 0x3ca0e000; *0x1008 = 0x90851000; *0x100c = 0x4200fffc; *0x1010 = 0x4e800020 => 2087256998 | 1017176064 | -1870327808 | 1107361788 | 1317011488
(0x1000)(1, 7); (0x1000)(62, 8); (0x1000)(5, 9); *0xe0001004 => 1 | 62 | 5 | 64
*0xe0001000; *0xe0001000; *0xe0001004 => 7 | 8 | 62
*0x1008 = 0x80651000; (0x1000)(60); (0x1000)(1); (0x1000)(1); (0x1000)(1); *0xe0001004 => -2140860416 | 8 | 8 | 9 | 0 | 0
ROWS

# A function of one instruction: `lbz r3, 0(r3)`, `lhz r3, 0(r3)`, `stb r4, 0(r3)`, `sth r4, 0(r3)`; and one in the latch.
shows 'a device takes whole words alone, and has no instructions'
of_board_1
rows <<'ROWS'
*0x1000 = 0x88630000; *0x1010 = 0xa0630000; *0x1020 = 0x98830000; *0x1030 = 0xb0830000 => -2006777856 | -1604124672 | -1736245248 | -1333592064
*0x1004 = *0x1014 = *0x1024 = *0x1034 = 0x4e800020; *0x2000 = 0x01020304; *0xe0000000 = 0x4e800020 => 1317011488 | 16909060 | 1317011488
(0x1000)(0x2001); (0x1010)(0x2002); (0x1020)(0x2000, 0x1ff); (0x1030)(0x2002, 0x1ffff); *0x2000 => 2 | 772 | 8192 | 8194 | -16580609
(0x1000)(0xe0000000) =>  | exception access in tShell (0x1) at 0x00001000
(0x1010)(0xe0000000) =>  | exception access in tShell (0x1) at 0x00001010
(0x1020)(0xe0000000, 1) =>  | exception access in tShell (0x1) at 0x00001020
(0x1030)(0xe0000000, 1) =>  | exception access in tShell (0x1) at 0x00001030
(0xe0000000)() =>  | exception access in tShell (0x1) at 0xe0000000
(0x1000)(0x1000000) =>  | exception access in tShell (0x1) at 0x00001000
(0x1030)(0xffffff, 1) =>  | exception access in tShell (0x1) at 0x00001030
*0xe0000000 => 1317011488
ROWS
