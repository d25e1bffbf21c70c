# Semaphores, mutexes, deletions of tasks and message queues, from the shell and from machine code. What they write was
# worked out by hand from the rules of the calls.

announced() {
    printf 'new symbol "%s" added to symbol table.' "$1"
}

shows 'a take that waits too long'
console 's = semBCreate(0, 0)\nsemTake s, 2\nerrnoGet\n'
ticks 'every 50 2\n'
plays
ends 0 "-> s = semBCreate(0, 0)
$(announced s)
value = 2 = 0x2
-> semTake s, 2
value = -1 = 0xffffffff
-> errnoGet
value = 3997700 = 0x3d0004
-> " ''

shows 'a flush wakes all, and a deletion leaves no semaphore'
console 's = semBCreate(0, 0)
sp semTake, s, -1; sp semTake, s, -1; sp semTake, s, -1
taskDelay 1
taskIdVerify 3; taskIdVerify 4; taskIdVerify 5
semFlush s; taskDelay 1
taskIdVerify 3; taskIdVerify 4; taskIdVerify 5
semTake s, 0
semDelete s
semTake s, 0; errnoGet
'
ticks 'every 100 2\n'
plays
ends 0 "-> s = semBCreate(0, 0)
$(announced s)
value = 2 = 0x2
-> sp semTake, s, -1; sp semTake, s, -1; sp semTake, s, -1
task spawned: id = 0x3, name = t1
value = 3 = 0x3
task spawned: id = 0x4, name = t2
value = 4 = 0x4
task spawned: id = 0x5, name = t3
value = 5 = 0x5
-> taskDelay 1
value = 0 = 0x0
-> taskIdVerify 3; taskIdVerify 4; taskIdVerify 5
value = 0 = 0x0
value = 0 = 0x0
value = 0 = 0x0
-> semFlush s; taskDelay 1
value = 0 = 0x0
value = 0 = 0x0
-> taskIdVerify 3; taskIdVerify 4; taskIdVerify 5
value = -1 = 0xffffffff
value = -1 = 0xffffffff
value = -1 = 0xffffffff
-> semTake s, 0
value = -1 = 0xffffffff
-> semDelete s
value = 0 = 0x0
-> semTake s, 0; errnoGet
value = -1 = 0xffffffff
value = 3997697 = 0x3d0001
-> " ''

shows 'a deletion ends every wait'
console 's = semCCreate(1, 0)
sp semTake, s, -1; sp semTake, s, -1
taskDelay 1
semDelete s; taskDelay 1
taskIdVerify 3; taskIdVerify 4
'
ticks 'every 100 2\n'
plays
ends 0 "-> s = semCCreate(1, 0)
$(announced s)
value = 2 = 0x2
-> sp semTake, s, -1; sp semTake, s, -1
task spawned: id = 0x3, name = t1
value = 3 = 0x3
task spawned: id = 0x4, name = t2
value = 4 = 0x4
-> taskDelay 1
value = 0 = 0x0
-> semDelete s; taskDelay 1
value = 0 = 0x0
value = 0 = 0x0
-> taskIdVerify 3; taskIdVerify 4
value = -1 = 0xffffffff
value = -1 = 0xffffffff
-> " ''

shows 'the greatest count'
console 'c = semCCreate(0, -1)\nsemGive c; errnoGet\nsemTake c, 0; semGive c\n'
plays
ends 0 "-> c = semCCreate(0, -1)
$(announced c)
value = 2 = 0x2
-> semGive c; errnoGet
value = -1 = 0xffffffff
value = 1441796 = 0x160004
-> semTake c, 0; semGive c
value = 0 = 0x0
value = 0 = 0x0
-> " ''

shows 'options and states that a semaphore may not have'
console 'semBCreate 0, 2; errnoGet\nsemBCreate 2, 2; errnoGet\nsemMCreate 8; errnoGet\nsemMCreate 9\n'
plays
ends 0 '-> semBCreate 0, 2; errnoGet
value = 0 = 0x0
value = 1441793 = 0x160001
-> semBCreate 2, 2; errnoGet
value = 0 = 0x0
value = 1441794 = 0x160002
-> semMCreate 8; errnoGet
value = 0 = 0x0
value = 1441794 = 0x160002
-> semMCreate 9
value = 2 = 0x2
-> ' ''

# li r6,1024; mtctr r6; then that often: li r3,0; li r4,0; a call of semBCreate; bdnz; and back to the shell
shows 'as many semaphores as there may be, and a mutex beside them'
of_board_1
console '*0x1000 = 0x38c00400; *0x1004 = 0x7cc903a6; *0x1008 = 0x38600000; *0x100c = 0x38800000
*0x1010 = 0x49000143; *0x1014 = 0x4200fff4; *0x1018 = 0x49000012
(0x1000)()
semBCreate 0, 0; errnoGet
semMCreate 0
semDelete 7; semCCreate 0, 0
'
plays
ends 0 '-> *0x1000 = 0x38c00400; *0x1004 = 0x7cc903a6; *0x1008 = 0x38600000; *0x100c = 0x38800000
value = 952108032 = 0x38c00400
value = 2093548454 = 0x7cc903a6
value = 945815552 = 0x38600000
value = 947912704 = 0x38800000
-> *0x1010 = 0x49000143; *0x1014 = 0x4200fff4; *0x1018 = 0x49000012
value = 1224737091 = 0x49000143
value = 1107361780 = 0x4200fff4
value = 1224736786 = 0x49000012
-> (0x1000)()
value = 1025 = 0x401
-> semBCreate 0, 0; errnoGet
value = 0 = 0x0
value = 196611 = 0x30003
-> semMCreate 0
value = 1026 = 0x402
-> semDelete 7; semCCreate 0, 0
value = 0 = 0x0
value = 1027 = 0x403
-> ' ''

shows 'a mutex has no flush, and is given by its owner alone'
console 'm = semMCreate(0)\nsemFlush m; errnoGet\nsemGive m; errnoGet\nsemTake m, 0; semTake m, 0; semGive m; semGive m; semGive m\n'
plays
ends 0 "-> m = semMCreate(0)
$(announced m)
value = 2 = 0x2
-> semFlush m; errnoGet
value = -1 = 0xffffffff
value = 1441795 = 0x160003
-> semGive m; errnoGet
value = -1 = 0xffffffff
value = 1441795 = 0x160003
-> semTake m, 0; semTake m, 0; semGive m; semGive m; semGive m
value = 0 = 0x0
value = 0 = 0x0
value = 0 = 0x0
value = 0 = 0x0
value = -1 = 0xffffffff
-> " ''

shows 'a mutex whose owner ended stays owned'
console 'm = semMCreate(13)\nsp semTake, m, -1\ntaskDelay 1\nsemTake m, -1\n'
ticks 'tick 500\n'
plays
ends 0 "-> m = semMCreate(13)
$(announced m)
value = 2 = 0x2
-> sp semTake, m, -1
task spawned: id = 0x3, name = t1
value = 3 = 0x3
-> taskDelay 1
value = 0 = 0x0
-> semTake m, -1
" ''

shows 'an owner keeps what it inherited of a waiter that waits no more'
console 'm = semMCreate(13)
p = 0
taskPrioritySet 0, 200
semTake m, -1
sp semTake, m, 2
taskPriorityGet 0, &p; p
taskDelay 3
taskPriorityGet 0, &p; p
semGive m
taskPriorityGet 0, &p; p
'
ticks 'every 500 4\n'
plays
ends 0 "-> m = semMCreate(13)
$(announced m)
value = 2 = 0x2
-> p = 0
$(announced p)
value = 0 = 0x0
-> taskPrioritySet 0, 200
value = 0 = 0x0
-> semTake m, -1
value = 0 = 0x0
-> sp semTake, m, 2
task spawned: id = 0x3, name = t1
value = 3 = 0x3
-> taskPriorityGet 0, &p; p
value = 0 = 0x0
value = 100 = 0x64 = 'd'
-> taskDelay 3
value = 0 = 0x0
-> taskPriorityGet 0, &p; p
value = 0 = 0x0
value = 100 = 0x64 = 'd'
-> semGive m
value = 0 = 0x0
-> taskPriorityGet 0, &p; p
value = 0 = 0x0
value = 200 = 0xc8
-> " ''

shows 'a mutex that is deleted counts as given in full'
console 'm = semMCreate(13)
p = 0
taskPrioritySet 0, 200
semTake m, -1; semTake m, -1
sp semTake, m, -1
semDelete m
taskPriorityGet 0, &p; p
taskUnsafe; errnoGet
'
plays
ends 0 "-> m = semMCreate(13)
$(announced m)
value = 2 = 0x2
-> p = 0
$(announced p)
value = 0 = 0x0
-> taskPrioritySet 0, 200
value = 0 = 0x0
-> semTake m, -1; semTake m, -1
value = 0 = 0x0
value = 0 = 0x0
-> sp semTake, m, -1
task spawned: id = 0x3, name = t1
value = 3 = 0x3
-> semDelete m
value = 0 = 0x0
-> taskPriorityGet 0, &p; p
value = 0 = 0x0
value = 200 = 0xc8
-> taskUnsafe; errnoGet
value = -1 = 0xffffffff
value = 196610 = 0x30002
-> " ''

# li r4,-1; a call of semTake; li r3,0; of taskSuspend; li r3,2; of semGive; and the task's end
shows 'a suspended owner keeps its mutex'
of_board_1
console '*0x1000 = 0x3880ffff; *0x1004 = 0x49000173; *0x1008 = 0x38600000; *0x100c = 0x49000063
*0x1010 = 0x38600002; *0x1014 = 0x49000183; *0x1018 = 0x49000002
semMCreate 0
sp 0x1000, 2
taskDelay 1
semTake 2, 1; errnoGet
taskResume 3; taskDelay 1
semTake 2, 0
'
ticks 'every 500 4\n'
plays
ends 0 '-> *0x1000 = 0x3880ffff; *0x1004 = 0x49000173; *0x1008 = 0x38600000; *0x100c = 0x49000063
value = 947978239 = 0x3880ffff
value = 1224737139 = 0x49000173
value = 945815552 = 0x38600000
value = 1224736867 = 0x49000063
-> *0x1010 = 0x38600002; *0x1014 = 0x49000183; *0x1018 = 0x49000002
value = 945815554 = 0x38600002
value = 1224737155 = 0x49000183
value = 1224736770 = 0x49000002
-> semMCreate 0
value = 2 = 0x2
-> sp 0x1000, 2
task spawned: id = 0x3, name = t1
value = 3 = 0x3
-> taskDelay 1
value = 0 = 0x0
-> semTake 2, 1; errnoGet
value = -1 = 0xffffffff
value = 3997700 = 0x3d0004
-> taskResume 3; taskDelay 1
value = 0 = 0x0
value = 0 = 0x0
-> semTake 2, 0
value = 0 = 0x0
-> ' ''

shows 'an abort of the shell leaves it the mutexes that it owns'
console 'm = semMCreate(13)\nsemTake m, -1\ntaskDelay 9\n\0003semGive m\nsemGive m\n'
ticks 'rx 0 45\nrx 500 1\nrx 600 20\n'
plays
ends 0 "m = semMCreate(13)
semTake m, -1
taskDelay 9
-> $(announced m)
value = 2 = 0x2
-> value = 0 = 0x0
-> 
-> semGive m
semGive m
value = 0 = 0x0
-> value = -1 = 0xffffffff
-> " ''

shows 'the shell is deleted by nobody, also if it is safe'
console 'taskDelete 1; errnoGet\ntaskSafe\ntaskDelete 0; errnoGet\ntaskDelete 9; errnoGet\n'
plays
ends 0 '-> taskDelete 1; errnoGet
value = -1 = 0xffffffff
value = 1441795 = 0x160003
-> taskSafe
value = 0 = 0x0
-> taskDelete 0; errnoGet
value = -1 = 0xffffffff
value = 1441795 = 0x160003
-> taskDelete 9; errnoGet
value = -1 = 0xffffffff
value = 3997697 = 0x3d0001
-> ' ''

shows 'the stack of a deleted task is free'
console 'sp 0x3000\ntaskDelete 2\nsp 0x3000\nmalloc 16\n'
plays
ends 0 '-> sp 0x3000
task spawned: id = 0x2, name = t1
value = 2 = 0x2
-> taskDelete 2
value = 0 = 0x0
-> sp 0x3000
task spawned: id = 0x3, name = t2
value = 3 = 0x3
-> malloc 16
value = 109632 = 0x1ac40
-> 
exception illegal in t2 (0x3) at 0x00003000
' ''

shows 'queues of sizes and options that there are not'
console 'msgQCreate 0, 8, 0; errnoGet\nmsgQCreate 4097, 8, 0; errnoGet\nmsgQCreate 17, 65536, 0; errnoGet\nmsgQCreate 0, 8, 2; errnoGet\nmsgQCreate 16, 65536, 1\n'
plays
ends 0 '-> msgQCreate 0, 8, 0; errnoGet
value = 0 = 0x0
value = 4259843 = 0x410003
-> msgQCreate 4097, 8, 0; errnoGet
value = 0 = 0x0
value = 4259843 = 0x410003
-> msgQCreate 17, 65536, 0; errnoGet
value = 0 = 0x0
value = 4259843 = 0x410003
-> msgQCreate 0, 8, 2; errnoGet
value = 0 = 0x0
value = 1441794 = 0x160002
-> msgQCreate 16, 65536, 1
value = 2 = 0x2
-> ' ''

shows 'a sender waits for room, and its bytes are read when there is some'
console 'q = msgQCreate(1, 8, 0)
b = malloc(16)
*b = 0x31000000
msgQSend q, b, 1, 0, 0
sp msgQSend, q, b, 1, -1, 0
taskDelay 1
*b = 0x32000000
c = malloc(16)
msgQReceive q, c, 8, 0; *c
msgQReceive q, c, 8, 0; *c
msgQSend q, b, 9, 0, 0; errnoGet
msgQSend q, -1, 2, 0, 0; errnoGet
'
ticks 'every 500 1\n'
plays
ends 0 "-> q = msgQCreate(1, 8, 0)
$(announced q)
value = 2 = 0x2
-> b = malloc(16)
$(announced b)
value = 89648 = 0x15e30
-> *b = 0x31000000
value = 822083584 = 0x31000000
-> msgQSend q, b, 1, 0, 0
value = 0 = 0x0
-> sp msgQSend, q, b, 1, -1, 0
task spawned: id = 0x3, name = t1
value = 3 = 0x3
-> taskDelay 1
value = 0 = 0x0
-> *b = 0x32000000
value = 838860800 = 0x32000000
-> c = malloc(16)
$(announced c)
value = 109680 = 0x1ac70
-> msgQReceive q, c, 8, 0; *c
value = 1 = 0x1
value = 822083584 = 0x31000000
-> msgQReceive q, c, 8, 0; *c
value = 1 = 0x1
value = 838860800 = 0x32000000
-> msgQSend q, b, 9, 0, 0; errnoGet
value = -1 = 0xffffffff
value = 4259841 = 0x410001
-> msgQSend q, -1, 2, 0, 0; errnoGet
value = -1 = 0xffffffff
value = 1114116 = 0x110004
-> " ''
