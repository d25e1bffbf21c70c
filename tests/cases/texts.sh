# Calls that write texts, and interrupts that are held back. What they write was worked out by hand from the rules.

shows 'the table of the tasks, before and after a delay of the locking shell'
console 'taskPrioritySet 0, 200\ntaskLock; sp taskSuspend; i; taskDelay 1; i\n'
ticks 'tick 500\n'
plays
ends 0 '-> taskPrioritySet 0, 200
value = 0 = 0x0
-> taskLock; sp taskSuspend; i; taskDelay 1; i
value = 0 = 0x0
task spawned: id = 0x2, name = t1
value = 2 = 0x2
NAME              TID PRI STATUS   PC          ERRNO      DELAY
t1                  2 100 READY    01000060        0          0
tShell              1 200 READY    01000010        0          0
value = 0 = 0x0
value = 0 = 0x0
NAME              TID PRI STATUS   PC          ERRNO      DELAY
t1                  2 100 SUSPEND  01000000        0          0
tShell              1 200 READY    01000010        0          0
value = 0 = 0x0
-> ' ''

shows 'a format with numbers, strings and a character'
of_board_1
console 'printf "%d %x|%5s|%-5s|%c%04d\\n", -1, 255, "ab", "cd", 122, -7\nprintf 0x1000000; errnoGet\n'
plays
ends 0 '-> printf "%d %x|%5s|%-5s|%c%04d\\n", -1, 255, "ab", "cd", 122, -7
-1 ff|   ab|cd   |z-007
value = 24 = 0x18
-> printf 0x1000000; errnoGet
value = -1 = 0xffffffff
value = 1114116 = 0x110004
-> ' ''

shows 'dumps of memory, and sizes that there are not'
of_board_1
console '*0x2000 = 0x68656c6c\nd 0x2000, 5, 4\nd 0x2000, 3, 3; errnoGet\nd 0xffffff, 1, 2; errnoGet\n'
plays
ends 0 '-> *0x2000 = 0x68656c6c
value = 1751477356 = 0x68656c6c
-> d 0x2000, 5, 4
00002000: 68656c6c 00000000 00000000 00000000  *hell............*
00002010: 00000000  *....*
value = 0 = 0x0
-> d 0x2000, 3, 3; errnoGet
value = -1 = 0xffffffff
value = 4259843 = 0x410003
-> d 0xffffff, 1, 2; errnoGet
value = -1 = 0xffffffff
value = 1114116 = 0x110004
-> ' ''

shows 'a tick is held back while interrupts are'
console 'intLock; tickGet; intUnlock 0; tickGet\nintContext; intLock; intLock; intUnlock 2\n'
ticks 'tick 5\n'
plays
ends 0 '-> intLock; tickGet; intUnlock 0; tickGet
value = 0 = 0x0
value = 0 = 0x0
value = 0 = 0x0
value = 1 = 0x1
-> intContext; intLock; intLock; intUnlock 2
value = 0 = 0x0
value = 0 = 0x0
value = 1 = 0x1
value = 0 = 0x0
-> ' ''
