# Whole sessions. What they write, and the steps that they take, were worked out by hand from the rules of the
# machine. The prompt at the start is a step. Then a line takes one to arrive, one to be read, one for each statement,
# and one for the prompt; a call takes two and its own (a call of the kernel has one); a tick takes one, and so
# does a jump of time.

shows 'a sum'
lasts 5 "$output"

shows 'an empty console takes the step of the prompt'
console ''
lasts 1 '-> '

shows 'values below zero, and one that is a character'
console '7 - 9\n-1\n65\n4294967295\n2147483648\n'
lasts 21 "-> 7 - 9
value = -2 = 0xfffffffe
-> -1
value = -1 = 0xffffffff
-> 65
value = 65 = 0x41 = 'A'
-> 4294967295
value = -1 = 0xffffffff
-> 2147483648
value = -2147483648 = 0x80000000
-> "

shows 'which values are characters'
console '31; 32; 126; 127\n'
lasts 8 "-> 31; 32; 126; 127
value = 31 = 0x1f
value = 32 = 0x20 = ' '
value = 126 = 0x7e = '~'
value = 127 = 0x7f
-> "

shows 'the end of the last line is supplied'
console '1+2\n7'
lasts 9 '-> 1+2\nvalue = 3 = 0x3\n-> 7\nvalue = 7 = 0x7\n-> '

shows 'blank lines'
console '\n \n1+2\n\n7\n   \n'
lasts 21 '-> \n->  \n-> 1+2\nvalue = 3 = 0x3\n-> \n-> 7\nvalue = 7 = 0x7\n->    \n-> '

shows 'an empty statement takes a step, and writes nothing'
console '1;;2\n ;;1 ; \n'
lasts 14 '-> 1;;2
value = 1 = 0x1
value = 2 = 0x2
->  ;;1 ; 
value = 1 = 0x1
-> '

shows 'signs in a row'
console '- -1 - - 2\n'
lasts 5 '-> - -1 - - 2\nvalue = 3 = 0x3\n-> '

shows 'a delay of two ticks, and a third tick after the end of the console'
console 'taskDelay 2\ntickGet\n'
ticks 'every 100 3\n'
lasts 21 '-> taskDelay 2\nvalue = 0 = 0x0\n-> tickGet\nvalue = 2 = 0x2\n-> '

shows 'a task that locks delays all the same'
console 'taskLock; taskDelay 1; tickGet\ntaskDelay(-1)\n'
ticks 'every 50 3\n'
lasts 26 '-> taskLock; taskDelay 1; tickGet
value = 0 = 0x0
value = 0 = 0x0
value = 1 = 0x1
-> taskDelay(-1)
'

shows 'ticks far away come by a jump of time'
console 'taskDelay 3; tickGet\n'
ticks 'tick 4294967295\n\t \n#x\nevery  4294967295\t4294967295'
plays --limit 20
ends 3 '-> taskDelay 3; tickGet\nvalue = 0 = 0x0\nvalue = 3 = 0x3\n-> ' 'windplay: limit of 20 steps reached\n'

shows 'a shell that suspends itself is woken by nobody'
console 'taskSuspend 0\n7\n'
ticks 'tick 9\n'
lasts 7 '-> taskSuspend 0\n'

shows 'refusals of calls, and their error numbers'
console 'taskIdVerify 7; errnoGet
taskPrioritySet 0, 256; errnoGet
taskPrioritySet 2, 256; errnoGet
taskIdVerify 0
taskResume 1
errnoSet 7; errnoGet
taskSuspend 9
taskIdVerify 1
'
lasts 73 '-> taskIdVerify 7; errnoGet
value = -1 = 0xffffffff
value = 3997697 = 0x3d0001
-> taskPrioritySet 0, 256; errnoGet
value = -1 = 0xffffffff
value = 196609 = 0x30001
-> taskPrioritySet 2, 256; errnoGet
value = -1 = 0xffffffff
value = 3997697 = 0x3d0001
-> taskIdVerify 0
value = -1 = 0xffffffff
-> taskResume 1
value = 0 = 0x0
-> errnoSet 7; errnoGet
value = 0 = 0x0
value = 7 = 0x7
-> taskSuspend 9
value = -1 = 0xffffffff
-> taskIdVerify 1
value = 0 = 0x0
-> '

shows 'an unknown name drops the rest of its line'
console 'foo; 1\nnope(taskLock()); 1\ntickGet nope()\n'
lasts 13 '-> foo; 1
undefined symbol: foo
-> nope(taskLock()); 1
undefined symbol: nope
-> tickGet nope()
undefined symbol: nope
-> '

shows 'a variable is announced once'
console 'x = 7\nx = 7\n&x\n'
lasts 13 '-> x = 7
new symbol "x" added to symbol table.
value = 7 = 0x7
-> x = 7
value = 7 = 0x7
-> &x
value = 89632 = 0x15e20
-> '

shows 'a session goes on after a syntax error and a fault'
console '1+\n1/0\n2\n'
lasts 12 '-> 1+
syntax error at column 3
-> 1/0
divide by zero
-> 2
value = 2 = 0x2
-> '

shows 'ten arguments are taken, and eleven are not'
console 'taskIdSelf 1,2,3,4,5,6,7,8,9,10\ntaskIdSelf 1,2,3,4,5,6,7,8,9,10,11\n'
lasts 11 '-> taskIdSelf 1,2,3,4,5,6,7,8,9,10
value = 1 = 0x1
-> taskIdSelf 1,2,3,4,5,6,7,8,9,10,11
syntax error at column 32
-> '

shows 'calls inside an expression'
console 'tickGet() - taskIdSelf()\n'
lasts 11 '-> tickGet() - taskIdSelf()\nvalue = -1 = 0xffffffff\n-> '

# `li r3, 7` and `blr`.
shows 'a function of two instructions'
console '*0x1000 = 0x38600007; *0x1004 = 0x4e800020\n(0x1000)()\n'
lasts 14 '-> *0x1000 = 0x38600007; *0x1004 = 0x4e800020
value = 945815559 = 0x38600007
value = 1317011488 = 0x4e800020
-> (0x1000)()
value = 7 = 0x7
-> '

# `li r4, 0`, `addic r3, r3, -1`, `addze r4, r4`, `stw r4, 0x2000(0)` and `blr`.
shows 'the carry of a sum'
console '*0x1000 = 0x38800000; *0x1004 = 0x3063ffff; *0x1008 = 0x7c840194; *0x100c = 0x90802000; *0x1010 = 0x4e800020
(0x1000)(0); *0x2000
(0x1000)(1); *0x2000
'
lasts 33 '-> *0x1000 = 0x38800000; *0x1004 = 0x3063ffff; *0x1008 = 0x7c840194; *0x100c = 0x90802000; *0x1010 = 0x4e800020
value = 947912704 = 0x38800000
value = 811859967 = 0x3063ffff
value = 2089025940 = 0x7c840194
value = -1870651392 = 0x90802000
value = 1317011488 = 0x4e800020
-> (0x1000)(0); *0x2000
value = -1 = 0xffffffff
value = 0 = 0x0
-> (0x1000)(1); *0x2000
value = 0 = 0x0
value = 1 = 0x1
-> '

shows 'an exception aborts a call of the shell'
console '(0x3000)(); 1\n2\n'
lasts 10 '-> (0x3000)(); 1\n\nexception illegal in tShell (0x1) at 0x00003000\n-> 2\nvalue = 2 = 0x2\n-> '

shows 'an exception suspends a task'
console 'sp 0x3000\n'
lasts 9 '-> sp 0x3000
task spawned: id = 0x2, name = t1
value = 2 = 0x2
-> 
exception illegal in t1 (0x2) at 0x00003000
'

shows 'a block is freed once'
console 'malloc 10\nfree 0x15e20\nfree 0x15e20\nerrnoGet\n'
lasts 29 '-> malloc 10
value = 89632 = 0x15e20
-> free 0x15e20
value = 0 = 0x0
-> free 0x15e20
value = -1 = 0xffffffff
-> errnoGet
value = 1114114 = 0x110002
-> '

shows 'a block lies at the least place that fits'
console 'malloc 16; malloc 16; malloc 64; malloc 16
free 0x15e20; free 0x15e40
malloc 32
malloc 0
malloc 16
memalign 0x100, 16
memalign 3, 16
errnoGet
memalign 65536, 1
memalign 131072, 1
malloc 0 - 1; errnoGet
'
lasts 98 '-> malloc 16; malloc 16; malloc 64; malloc 16
value = 89632 = 0x15e20
value = 89648 = 0x15e30
value = 89664 = 0x15e40
value = 89728 = 0x15e80
-> free 0x15e20; free 0x15e40
value = 0 = 0x0
value = 0 = 0x0
-> malloc 32
value = 89664 = 0x15e40
-> malloc 0
value = 89632 = 0x15e20
-> malloc 16
value = 89696 = 0x15e60
-> memalign 0x100, 16
value = 89856 = 0x15f00
-> memalign 3, 16
value = 0 = 0x0
-> errnoGet
value = 1114115 = 0x110003
-> memalign 65536, 1
value = 131072 = 0x20000
-> memalign 131072, 1
value = 0 = 0x0
-> malloc 0 - 1; errnoGet
value = 0 = 0x0
value = 1114113 = 0x110001
-> '

# `malloc`'s gate is the 38th one, at 0x1000260.
shows 'a name before an operator is a value, and no call'
console 'malloc -1\n'
lasts 5 '-> malloc -1\nvalue = 16777839 = 0x100026f\n-> '

# A branch to itself; the byte 0x03 ends the call at 500, and the line after it is read at 600.
shows 'an interrupt of the console ends a call'
console '*0x1000 = 0x48000000\n(0x1000)()\n\00031\n'
ticks 'rx 0 32\nrx 500 1\nrx 600 2\n'
lasts 508 '*0x1000 = 0x48000000
(0x1000)()
-> value = 1207959552 = 0x48000000
-> 
-> 1
value = 1 = 0x1
-> '

shows 'an interrupt of the console ends a delay'
console 'taskDelay 9\n\00031\n'
ticks 'rx 1 12\nrx 50 3\n'
lasts 11 '-> taskDelay 9\n\n1\n-> value = 1 = 0x1\n-> '

shows 'an interrupt of the console drops the line that was kept'
console '7\n8\n\00039\n'
ticks 'rx 0 7\n'
lasts 5 '7\n8\n\n9\n-> value = 9 = 0x9\n-> '

shows 'a byte is erased, and if there is none, nothing is'
console '1\0010\01772\n'
lasts 5 '-> 1\0010 \00102\nvalue = 2 = 0x2\n-> '

shows 'the edited line is cleared'
console '12\00253\n'
lasts 5 '-> 12\n3\nvalue = 3 = 0x3\n-> '

shows 'three ends of a line'
console '1\r\n2\r3\n\r4\n'
lasts 21 '-> 1
value = 1 = 0x1
-> 2
value = 2 = 0x2
-> 3
value = 3 = 0x3
-> 
-> 4
value = 4 = 0x4
-> '

shows 'control bytes are dropped, tabs and bytes above 0x7F are kept'
console '\0001\0002\00331\t+\02002\n\0377\n'
lasts 7 '-> 1\t+\02002\nsyntax error at column 4\n-> \0377\nsyntax error at column 1\n-> '

# Two bytes more than a line keeps: of 258 the last digit is one.
shows 'a line keeps 255 bytes'
console "1$(printf '%256s' '')2\n"
lasts 5 "-> 1$(printf '%254s' '')\nvalue = 1 = 0x1\n-> "

# Four instructions that add 1 to the word at r3 over and over. From 28 to 138, at the fifth tick, the shell sleeps: t1
# runs up to the second tick, at 110, t2 up to the fourth, at 130, and t1 again. These are 90 instructions of t1 and
# 20 of t2, and each third one of four is a store.
shows 'two tasks take turns of two ticks'
console '*0x1000 = 0x80a30000; *0x1004 = 0x38a50001; *0x1008 = 0x90a30000; *0x100c = 0x4bfffff4
kernelTimeSlice 2
sp 0x1000, 0x2000
sp 0x1000, 0x2004
taskDelay 5
*0x2000; *0x2004
taskSuspend 2; taskSuspend 3
'
ticks 'tick 100\ntick 110\ntick 120\ntick 130\ntick 138\n'
plays
ends 0 "-> *0x1000 = 0x80a30000; *0x1004 = 0x38a50001; *0x1008 = 0x90a30000; *0x100c = 0x4bfffff4
value = -2136801280 = 0x80a30000
value = 950337537 = 0x38a50001
value = -1868365824 = 0x90a30000
value = 1275068404 = 0x4bfffff4
-> kernelTimeSlice 2
value = 0 = 0x0
-> sp 0x1000, 0x2000
task spawned: id = 0x2, name = t1
value = 2 = 0x2
-> sp 0x1000, 0x2004
task spawned: id = 0x3, name = t2
value = 3 = 0x3
-> taskDelay 5
value = 0 = 0x0
-> *0x2000; *0x2004
value = 22 = 0x16
value = 5 = 0x5
-> taskSuspend 2; taskSuspend 3
value = 0 = 0x0
value = 0 = 0x0
-> " ''

# The same tasks, while the shell waits for the console from 25 on: they run to the limit.
shows 'two tasks that run on'
console '*0x1000 = 0x80a30000; *0x1004 = 0x38a50001; *0x1008 = 0x90a30000; *0x100c = 0x4bfffff4
kernelTimeSlice 2
sp 0x1000, 0x2000
sp 0x1000, 0x2004
'
ticks 'tick 100\ntick 110\ntick 120\ntick 130\n'
plays --limit 138
ends 3 '-> *0x1000 = 0x80a30000; *0x1004 = 0x38a50001; *0x1008 = 0x90a30000; *0x100c = 0x4bfffff4
value = -2136801280 = 0x80a30000
value = 950337537 = 0x38a50001
value = -1868365824 = 0x90a30000
value = 1275068404 = 0x4bfffff4
-> kernelTimeSlice 2
value = 0 = 0x0
-> sp 0x1000, 0x2000
task spawned: id = 0x2, name = t1
value = 2 = 0x2
-> sp 0x1000, 0x2004
task spawned: id = 0x3, name = t2
value = 3 = 0x3
-> ' 'windplay: limit of 138 steps reached\n'
