# Watchdogs and interrupts held back, from the shell. What they write was worked out by hand from the rules of the calls.

shows 'a tick waits until interrupts are held back no more'
console 'intLock; tickGet; intUnlock 0; tickGet\n'
ticks 'tick 5\n'
plays
ends 0 '-> intLock; tickGet; intUnlock 0; tickGet
value = 0 = 0x0
value = 0 = 0x0
value = 0 = 0x0
value = 1 = 0x1
-> ' ''

# A semaphore, a watchdog that gives it when it is due, and two takes: what the lines before the takes write is the same.
begun='-> s = semBCreate(0, 0)
new symbol "s" added to symbol table.
value = 2 = 0x2
-> w = wdCreate()
new symbol "w" added to symbol table.
value = 3 = 0x3
-> '

shows 'at one tick a wait ends before the watchdog gives'
console 's = semBCreate(0, 0)
w = wdCreate()
wdStart w, 2, semGive, s
semTake s, 2
semTake s, 0
'
ticks 'every 1000 2\n'
plays
ends 0 "${begun}wdStart w, 2, semGive, s
value = 0 = 0x0
-> semTake s, 2
value = -1 = 0xffffffff
-> semTake s, 0
value = 0 = 0x0
-> " ''

shows 'a watchdog that is due earlier gives to the one who waits'
console 's = semBCreate(0, 0)
w = wdCreate()
wdStart w, 1, semGive, s
semTake s, 2
semTake s, 0
'
ticks 'every 1000 2\n'
plays
ends 0 "${begun}wdStart w, 1, semGive, s
value = 0 = 0x0
-> semTake s, 2
value = 0 = 0x0
-> semTake s, 0
value = -1 = 0xffffffff
-> " ''

shows 'an exception of an interrupt routine'
console 'w = wdCreate()\nwdStart w, 1, 0x3000, 0\n'
ticks 'tick 500\n'
plays
ends 0 '-> w = wdCreate()
new symbol "w" added to symbol table.
value = 2 = 0x2
-> wdStart w, 1, 0x3000, 0
value = 0 = 0x0
-> 
exception illegal in interrupt at 0x00003000
' ''

# The first of two routines of one tick is given up; the second gives the semaphore.
shows 'the routine after one that is given up runs'
console 's = semBCreate(0, 0)
v = wdCreate(); w = wdCreate()
wdStart v, 1, 0x3000, 0; wdStart w, 1, semGive, s
taskDelay 1
semTake s, 0
'
ticks 'tick 1000\n'
plays
ends 0 '-> s = semBCreate(0, 0)
new symbol "s" added to symbol table.
value = 2 = 0x2
-> v = wdCreate(); w = wdCreate()
new symbol "v" added to symbol table.
value = 3 = 0x3
new symbol "w" added to symbol table.
value = 4 = 0x4
-> wdStart v, 1, 0x3000, 0; wdStart w, 1, semGive, s
value = 0 = 0x0
value = 0 = 0x0
-> taskDelay 1

exception illegal in interrupt at 0x00003000
value = 0 = 0x0
-> semTake s, 0
value = 0 = 0x0
-> ' ''

# A call that no routine may make is refused, with its error number at interrupt level: `taskDelay` as the routine.
shows 'a routine may not wait, and a watchdog runs out once'
console 'w = wdCreate()
wdStart w, 1, taskDelay, 5
taskDelay 2
errnoGet
wdCancel w; wdDelete w
wdStart w, 1, taskDelay, 5; errnoGet
'
ticks 'every 1000 2\n'
plays
ends 0 '-> w = wdCreate()
new symbol "w" added to symbol table.
value = 2 = 0x2
-> wdStart w, 1, taskDelay, 5
value = 0 = 0x0
-> taskDelay 2
value = 0 = 0x0
-> errnoGet
value = 0 = 0x0
-> wdCancel w; wdDelete w
value = 0 = 0x0
value = 0 = 0x0
-> wdStart w, 1, taskDelay, 5; errnoGet
value = -1 = 0xffffffff
value = 3997697 = 0x3d0001
-> ' ''

# A routine at 0x1000 that adds its parameter, a digit, to the hexadecimal number at 0x2000, and stores its stack pointer at 0x2004 and its
# link register at 0x2008.
digits='*0x1000 = 0x80802000; *0x1004 = 0x54842036; *0x1008 = 0x7c841a14; *0x100c = 0x90802000 => -2139086848 | 1417945142 | 2089032212 | -1870651392
*0x1010 = 0x90202004; *0x1014 = 0x7ca802a6; *0x1018 = 0x90a02008; *0x101c = 0x4e800020 => -1876942844 | 2091385510 | -1868554232 | 1317011488
wdCreate; wdCreate; wdCreate => 2 | 3 | 4'

# The interrupt stack ends at 0x15e20, and gate 2 is at 0x01000020.
shows 'the routines of one tick run in the order of their starts, each with its parameter'
of_board_1
ticks 'every 1000 3\n'
rows <<ROWS
$digits
wdStart 3, 3, 0x1000, 7; taskDelay 1; wdStart 2, 2, 0x1000, 8; taskDelay 1; *0x2000 => 0 | 0 | 0 | 0 | 0
taskDelay 1; *0x2000 == 0x78; *0x2004 == 0x15e20 - 64; *0x2008 == 0x1000020 => 0 | 1 | 1 | 1
ROWS

shows 'on board 2 routines return to gate 2 of that board'
of_board_1
ticks 'every 1000 3\n'
rows --board 2 <<ROWS
$digits
wdStart 3, 3, 0x1000, 7; taskDelay 1; wdStart 2, 2, 0x1000, 8; taskDelay 1; *0x2000 => 0 | 0 | 0 | 0 | 0
taskDelay 1; *0x2000 == 0x78; *0x2004 == 0x15e20 - 64; *0x2008 == 0x4000020 => 0 | 1 | 1 | 1
ROWS

shows 'a watchdog that is started anew is last'
ticks 'every 1000 4\n'
rows <<ROWS
$digits
wdStart 2, 3, 0x1000, 7; wdStart 3, 3, 0x1000, 8; taskDelay 1; wdStart 2, 2, 0x1000, 9 => 0 | 0 | 0 | 0
taskDelay 3; *0x2000 == 0x89 => 0 | 1
ROWS

shows 'a watchdog runs out at its tick, once for each start; a delay of 0 is one tick'
ticks 'every 1000 6\n'
rows <<ROWS
$digits
wdStart 2, 0, 0x1000, 1; *0x2000; taskDelay 1; *0x2000 => 0 | 0 | 0 | 1
wdStart 2, 4, 0x1000, 2; wdStart 3, 3, 0x1000, 3; taskDelay 2; *0x2000 => 0 | 0 | 0 | 1
taskDelay 1; *0x2000 == 0x13; taskDelay 1; *0x2000 == 0x132; taskDelay 1; *0x2000 == 0x132 => 0 | 1 | 0 | 1 | 0 | 1
ROWS

# At 0x1040 a routine that cancels the watchdog of its parameter, at 0x1048 one that starts it with the routine 0x3000.
shows 'a routine that is cancelled does not run, unless it is listed already'
of_board_1
ticks 'every 1000 6\n'
rows <<ROWS
$digits
*0x1040 = 0x49000223; *0x1044 = 0x49000022; *0x1048 = 0x38800005; *0x104c = 0x38a03000 => 1224737315 | 1224736802 | 947912709 | 950022144
*0x1050 = 0x49000213; *0x1054 = 0x49000022 => 1224737299 | 1224736802
wdStart 2, 1, 0x1000, 7; wdStart 3, 1, 0x1000, 8; wdStart 4, 1, 0x1000, 9; wdCancel 2; wdDelete 4 => 0 | 0 | 0 | 0 | 0
taskDelay 1; *0x2000 => 0 | 8
wdStart 2, 1, 0x1040, 3; wdStart 3, 1, 0x1000, 5; taskDelay 1; *0x2000 == 0x85 => 0 | 0 | 0 | 1
wdStart 2, 1, 0x1048, 3; wdStart 3, 1, 0x1000, 6; taskDelay 1; *0x2000 == 0x856; wdDelete 3 => 0 | 0 | 0 | 1 | 0
wdStart 3, 1, 0x1000, 7; errnoGet; wdCancel 3; wdDelete 3; wdStart 0, 1, 0x1000, 7 => -1 | 3997697 | -1 | -1 | -1
wdCreate; taskDelay 1; *0x2000 == 0x856 => 5 | 0 | 1
ROWS

# `mtctr r3`, that often a call of wdCreate and `bdnz`, and back to the shell.
shows 'as many watchdogs as there may be'
of_board_1
rows <<'ROWS'
*0x1000 = 0x7c6903a6; *0x1004 = 0x49000203; *0x1008 = 0x4200fffc; *0x100c = 0x49000012 => 2087256998 | 1224737283 | 1107361788 | 1224736786
(0x1000)(256) => 257
wdCreate; errnoGet; wdDelete 7; wdCreate => 0 | 196611 | 0 | 258
ROWS
