# Interrupts of devices, from the shell. What they write was worked out by hand from the rules of the calls.

shows 'an interrupt gives a semaphore to the one who waits'
console 's = semBCreate(0, 0)
intConnect 0, semGive, s
semTake s, -1
'
ticks 'irq 500 0\n'
plays
ends 0 '-> s = semBCreate(0, 0)
new symbol "s" added to symbol table.
value = 2 = 0x2
-> intConnect 0, semGive, s
value = 0 = 0x0
-> semTake s, -1
value = 0 = 0x0
-> ' ''

shows 'a masked interrupt stays pending, and each is delivered once'
console 'intDisable 1
s = semCCreate(0, 0)
intConnect 1, semGive, s
taskDelay 1
intPending 1
intEnable 1
semTake s, 0
semTake s, 0
semTake s, 0
semTake s, 0
'
ticks 'irqs 100 3 1\ntick 500\n'
plays
ends 0 '-> intDisable 1
value = 0 = 0x0
-> s = semCCreate(0, 0)
new symbol "s" added to symbol table.
value = 2 = 0x2
-> intConnect 1, semGive, s
value = 0 = 0x0
-> taskDelay 1
value = 0 = 0x0
-> intPending 1
value = 3 = 0x3
-> intEnable 1
value = 0 = 0x0
-> semTake s, 0
value = 0 = 0x0
-> semTake s, 0
value = 0 = 0x0
-> semTake s, 0
value = 0 = 0x0
-> semTake s, 0
value = -1 = 0xffffffff
-> ' ''

shows 'a removed device is gone, and every other slot stays'
console 'devRemove 2
*0xe0002000
*0xe0000000 = 7
devRemove 2
errnoGet
'
plays
ends 0 '-> devRemove 2
value = 0 = 0x0
-> *0xe0002000
access fault at 0xe0002000
-> *0xe0000000 = 7
value = 7 = 0x7
-> devRemove 2
value = -1 = 0xffffffff
-> errnoGet
value = 3997697 = 0x3d0001
-> ' ''

shows 'a fifth routine, one that is not connected, an empty slot and a slot above 15'
rows <<'ROWS'
intConnect 0, 0x1000, 1; intConnect 0, 0x1000, 2; intConnect 0, 0x2000, 3; intConnect 0, 0x3000, 4 => 0 | 0 | 0 | 0
intConnect 0, 0x4000, 5; errnoGet => -1 | 196611
intDisconnect 0, 0x4000; errnoGet => -1 | 1441795
intDisconnect 0, 0x1000; intDisconnect 0, 0x1000; intDisconnect 0, 0x1000; errnoGet => 0 | 0 | -1 | 1441795
intConnect 3, 0x1000, 0; errnoGet; errnoSet 0; intConnect 16, 0x1000, 0; errnoGet => -1 | 3997697 | 0 | -1 | 3997697
intEnable 3; intDisable 3; intPending 3; devRemove 16; intPending 0xffffffff => -1 | -1 | -1 | -1 | -1
intPending 0; devRemove 0; intPending 0; *0xe0000000 => 0 | 0 | -1 | access fault at 0xe0000000
ROWS

# t1 waits for the semaphore. If the flush of slot 0 comes first, the give of slot 1 finds nobody who waits.
shows 'of two slots the least is delivered first'
console 's = semCCreate(0, 0)
sp semTake, s, -1
intDisable 0; intDisable 1
intConnect 1, semGive, s; intConnect 0, semFlush, s
taskDelay 1
intPending 0; intPending 1
intLock; intEnable 1; intEnable 0; intUnlock 0
semTake s, 0
'
ticks 'irq 300 1\nirq 300 0\ntick 500\n'
plays
ends 0 '-> s = semCCreate(0, 0)
new symbol "s" added to symbol table.
value = 2 = 0x2
-> sp semTake, s, -1
task spawned: id = 0x3, name = t1
value = 3 = 0x3
-> intDisable 0; intDisable 1
value = 0 = 0x0
value = 0 = 0x0
-> intConnect 1, semGive, s; intConnect 0, semFlush, s
value = 0 = 0x0
value = 0 = 0x0
-> taskDelay 1
value = 0 = 0x0
-> intPending 0; intPending 1
value = 1 = 0x1
value = 1 = 0x1
-> intLock; intEnable 1; intEnable 0; intUnlock 0
value = 0 = 0x0
value = 0 = 0x0
value = 0 = 0x0
value = 0 = 0x0
-> semTake s, 0
value = 0 = 0x0
-> ' ''
