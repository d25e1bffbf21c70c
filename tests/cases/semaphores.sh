# Who has a semaphore, and what a wait is answered; deletions of tasks that are safe. What each line comes to was worked out by hand
# from the rules of the calls.

# A task that takes the semaphore r3 with the timeout r4, and stores its answer where r8 says, and its error number 4 bytes after.
taker='*0x1000 = 0x49000173; *0x1004 = 0x90680000; *0x1008 = 0x490002c3 => 1224737139 | -1872232448 | 1224737475
*0x100c = 0x90680004; *0x1010 = 0x49000002 => -1872232444 | 1224736770'

# What the spawn of a task comes to, by its id and the number in its name; and a change of its priority, or a delay.
spawned() {
    printf 'task spawned: id = 0x%x, name = t%d | %d | 0' "$1" "$2" "$1"
}

# The first of each pair of tasks comes first, and the second is more urgent. A 9 stands for no answer yet.
shows 'the most urgent has a semaphore, by the priority that it has when the semaphore is given'
of_board_1
ticks 'every 500 6\n'
rows <<ROWS
$taker
*0x3000 = *0x3010 = *0x3020 = *0x3030 = 9; semBCreate 1, 0 => 9 | 2
sp 0x1000, 2, -1, 0, 0, 0, 0x3000; taskDelay 1 => $(spawned 3 1)
sp 0x1000, 2, -1, 0, 0, 0, 0x3010; taskPrioritySet 4, 50 => $(spawned 4 2)
taskDelay 1; semGive 2; taskDelay 1; *0x3000; *0x3010 => 0 | 0 | 0 | 9 | 0
sp 0x1000, 2, -1, 0, 0, 0, 0x3020; taskPrioritySet 5, 50 => $(spawned 5 3)
taskDelay 1; taskPrioritySet 5, 150; semGive 2; taskDelay 1; *0x3000; *0x3020 => 0 | 0 | 0 | 0 | 0 | 9
semGive 2; taskDelay 1; *0x3020; semTake 2, 0 => 0 | 0 | 0 | -1
ROWS

shows 'who comes first has a semaphore whose waiters stand by arrival'
of_board_1
ticks 'every 500 3\n'
rows <<ROWS
$taker
*0x3000 = *0x3010 = 9; semCCreate 0, 0 => 9 | 2
sp 0x1000, 2, -1, 0, 0, 0, 0x3000; taskDelay 1 => $(spawned 3 1)
sp 0x1000, 2, -1, 0, 0, 0, 0x3010; taskPrioritySet 4, 50 => $(spawned 4 2)
taskDelay 1; semGive 2; taskDelay 1; *0x3000; *0x3010 => 0 | 0 | 0 | 0 | 9
ROWS

shows 'who waited too long stands in no line any more'
of_board_1
ticks 'every 500 4\n'
rows <<ROWS
$taker
*0x3000 = *0x3010 = 9; semBCreate 1, 0 => 9 | 2
sp 0x1000, 2, -1, 0, 0, 0, 0x3000; taskDelay 1 => $(spawned 3 1)
sp 0x1000, 2, 1, 0, 0, 0, 0x3010; taskPrioritySet 4, 50 => $(spawned 4 2)
taskDelay 1; taskDelay 1; *0x3010; *0x3014; *0x3000 => 0 | 0 | -1 | 3997700 | 9
semGive 2; taskDelay 1; *0x3000; semGive 2; semTake 2, 0 => 0 | 0 | 0 | 0 | 0
ROWS

shows 'a flush answers all that wait, and so does a deletion'
of_board_1
ticks 'every 500 6\n'
rows <<ROWS
$taker
semBCreate 1, 0; *0x3000 = *0x3010 = 9 => 2 | 9
sp 0x1000, 2, -1, 0, 0, 0, 0x3000; taskDelay 1 => $(spawned 3 1)
sp 0x1000, 2, -1, 0, 0, 0, 0x3010; taskDelay 1 => $(spawned 4 2)
semFlush 2; taskDelay 1; *0x3000; *0x3010; semTake 2, 0; errnoGet => 0 | 0 | 0 | 0 | -1 | 3997698
sp 0x1000, 2, -1, 0, 0, 0, 0x3000; taskDelay 1 => $(spawned 5 3)
sp 0x1000, 2, -1, 0, 0, 0, 0x3010; taskDelay 1 => $(spawned 6 4)
semDelete 2; taskDelay 1; *0x3000; *0x3004; *0x3010; *0x3014 => 0 | 0 | -1 | 3997699 | -1 | 3997699
semGive 2; errnoGet; semFlush 2; semDelete 2; semTake 2, 0 => -1 | 3997697 | -1 | -1 | -1
ROWS

shows 'a binary semaphore is full, and a counting one counts'
rows <<'ROWS'
semBCreate 0, 1; semGive 2; semTake 2, 0; semTake 2, 0; errnoGet => 2 | 0 | 0 | -1 | 3997698
semCCreate 1, 1; semGive 3; semTake 3, 0; semTake 3, 0; semTake 3, 0 => 3 | 0 | 0 | 0 | -1
ROWS

shows 'the options of each kind'
rows <<'ROWS'
semBCreate 0, 0; semBCreate 1, 0; semBCreate 2, 0; semBCreate 4, 0; semBCreate 8, 0 => 2 | 3 | 0 | 0 | 0
semCCreate 0, 0; semCCreate 1, 0; semCCreate 9, 0; semCCreate 0x80000001, 0 => 4 | 5 | 0 | 0
semMCreate 0; semMCreate 1; semMCreate 2; semMCreate 4; semMCreate 8; semMCreate 9; semMCreate 13 => 6 | 7 | 0 | 8 | 0 | 9 | 10
semMCreate 0x80000001; errnoGet => 0 | 1441794
ROWS

# At 0x1000 a task that calls taskSafe twice and suspends itself, and calls taskUnsafe and suspends itself as often as it is resumed. At
# 0x1040 one that deletes the task of the id r3: its answer and error number go where r8 says and 4 bytes after, and the error number
# of the same call once more 8 bytes after.
shows 'a task that is safe twice goes when it is safe no more, by the first that waits to delete it'
of_board_1
ticks 'every 500 5\n'
rows <<ROWS
*0x1000 = *0x1004 = 0x490000d3; *0x1008 = 0x38600000; *0x100c = 0x49000063 => 1224736979 | 945815552 | 1224736867
*0x1010 = 0x490000e3; *0x1014 = 0x4bfffff4 => 1224736995 | 1275068404
*0x1040 = *0x1054 = 0x49000053; *0x1044 = 0x90680000; *0x1048 = *0x1058 = 0x490002c3 => 1224736851 | -1872232448 | 1224737475
*0x104c = 0x90680004; *0x1050 = 0x38600002; *0x105c = 0x90680008 => -1872232444 | 945815554 | -1872232440
*0x1060 = 0x49000002; *0x3000 = *0x3010 = 9 => 1224736770 | 9
sp 0x1000; taskDelay 1 => $(spawned 2 1)
sp 0x1040, 2, 0, 0, 0, 0, 0x3000; taskPrioritySet 3, 50 => $(spawned 3 2)
taskDelay 1 => 0
sp 0x1040, 2, 0, 0, 0, 0, 0x3010; taskPrioritySet 4, 40 => $(spawned 4 3)
taskDelay 1; *0x3000; *0x3010; taskIdVerify 2 => 0 | 9 | 9 | 0
taskResume 2; taskDelay 1; *0x3000; *0x3010; taskIdVerify 2 => 0 | 0 | 9 | 9 | 0
taskResume 2; taskDelay 1; taskIdVerify 2 => 0 | 0 | -1
*0x3010; *0x3014; *0x3018 => 0 | 0 | 3997697
*0x3000; *0x3004; *0x3008 => -1 | 3997699 | 3997697
taskIdVerify 3; taskIdVerify 4 => -1 | -1
ROWS

# At 0x1000 a task that calls taskSafe, sleeps for two ticks and deletes itself. The task t2 waits to delete it.
shows 'a task that deletes itself goes, safe or not, and who waits to delete it goes on'
of_board_1
ticks 'every 500 4\n'
rows <<ROWS
*0x1000 = 0x490000d3; *0x1004 = 0x38600002; *0x1008 = 0x490000a3; *0x100c = 0x38600000 => 1224736979 | 945815554 | 1224736931 | 945815552
*0x1010 = 0x49000053; *0x1040 = 0x49000053; *0x1044 = 0x90680000; *0x1048 = 0x490002c3 => 1224736851 | 1224736851 | -1872232448 | 1224737475
*0x104c = 0x90680004; *0x1050 = 0x49000002 => -1872232444 | 1224736770
sp 0x1000; taskDelay 1 => $(spawned 2 1)
sp 0x1040, 2, 0, 0, 0, 0, 0x3000; taskDelay 1 => $(spawned 3 2)
taskIdVerify 2; *0x3000; taskDelay 2; taskIdVerify 2; *0x3000; *0x3004 => 0 | 0 | 0 | -1 | -1 | 3997699
ROWS

# At 0x1000 r3 semaphores, each made and deleted: `mtctr r3`, `li r3, 0`, `li r4, 0`, both calls, `bdnz`, and back to the shell. Each takes an
# id, the first of them the one after the shell's task, so the last id is left after 1,048,574.
shows 'no semaphore is made when the ids are used up'
of_board_1
console '*0x1000 = 0x7c6903a6; *0x1004 = 0x38600000; *0x1008 = 0x38800000; *0x100c = 0x49000143
*0x1010 = 0x490001a3; *0x1014 = 0x4200fff0; *0x1018 = 0x49000012
(0x1000)(1048574)
semBCreate 0, 0
semBCreate 0, 0; errnoGet
semCCreate 0, 0; semMCreate 13; errnoGet
'
plays --limit 10000000
ends 0 '-> *0x1000 = 0x7c6903a6; *0x1004 = 0x38600000; *0x1008 = 0x38800000; *0x100c = 0x49000143
value = 2087256998 = 0x7c6903a6
value = 945815552 = 0x38600000
value = 947912704 = 0x38800000
value = 1224737091 = 0x49000143
-> *0x1010 = 0x490001a3; *0x1014 = 0x4200fff0; *0x1018 = 0x49000012
value = 1224737187 = 0x490001a3
value = 1107361776 = 0x4200fff0
value = 1224736786 = 0x49000012
-> (0x1000)(1048574)
value = 0 = 0x0
-> semBCreate 0, 0
value = 1048576 = 0x100000
-> semBCreate 0, 0; errnoGet
value = 0 = 0x0
value = 196612 = 0x30004
-> semCCreate 0, 0; semMCreate 13; errnoGet
value = 0 = 0x0
value = 0 = 0x0
value = 196612 = 0x30004
-> ' ''
