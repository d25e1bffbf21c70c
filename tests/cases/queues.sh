# Message queues, and the tasks that wait at them. What each line comes to was worked out by hand from the rules of the calls.

# Two routines of tasks: the receive of r3 to r6 at 0x1000 and the send of r3 to r7 at 0x1020. Each stores its answer where r8 says, and
# its error number 4 bytes after that.
routines='*0x1000 = 0x490001d3; *0x1020 = 0x490001c3 => 1224737235 | 1224737219
*0x1004 = *0x1024 = 0x90680000; *0x1008 = *0x1028 = 0x490002c3 => -1872232448 | 1224737475
*0x100c = *0x102c = 0x90680004; *0x1010 = *0x1030 = 0x49000002 => -1872232444 | 1224736770'

# What the spawn of a task comes to, by its id and the number in its name, and then a delay.
spawned() {
    printf 'task spawned: id = 0x%x, name = t%d | %d | 0' "$1" "$2" "$1"
}

# The text "onetwosixten" from 0x2000 on.
words='*0x2000 = 0x6f6e6574; *0x2004 = 0x776f7369; *0x2008 = 0x7874656e => 1869505908 | 2003792745 | 2020894062'

shows 'the refusals of the calls, in their order'
of_board_1
rows <<'ROWS'
msgQCreate 0, 8, 2; errnoGet => 0 | 1441794
msgQCreate 0, 8, 0; errnoGet => 0 | 4259843
msgQCreate 1, 65537, 0; errnoGet => 0 | 4259843
msgQCreate 4096, 257, 0; errnoGet => 0 | 4259843
msgQCreate 4096, 256, 0 => 2
msgQCreate 2, 8, 0 => 3
msgQSend 9, 0xffffff, 9, 0, 0; errnoGet => -1 | 3997697
msgQSend 3, 0xffffff, 9, 0, 0; errnoGet => -1 | 4259841
msgQSend 3, 0xfffffd, 4, -1, 0; errnoGet => -1 | 1114116
msgQSend 3, 0xfffffc, 4, 0, 0 => 0
msgQSend 3, -1, 0, 0, 1 => 0
msgQSend 3, 0, 8, 0, 1; errnoGet => -1 | 3997698
msgQNumMsgs 3 => 2
msgQReceive 9, 0xfffffd, 9, -1; errnoGet => -1 | 3997697
msgQReceive 3, 0xfffff9, 100, -1; errnoGet => -1 | 1114116
msgQReceive 3, 0xfffff8, 100, -1 => 0
msgQReceive 3, -1, 0, 0 => 0
msgQReceive 3, 0, 8, 0; errnoGet => -1 | 3997698
msgQNumMsgs 9; errnoGet => -1 | 3997697
msgQDelete 9; errnoGet => -1 | 3997697
msgQDelete 3 => 0
msgQNumMsgs 3; errnoGet => -1 | 3997697
msgQCreate 1, 0, 1 => 4
msgQNumMsgs 4 => 0
ROWS

# At 0x1040 two urgent bytes are sent from 0x2000, with no timeout; at 0x1060 with one, and the error number goes to 0x3000.
shows 'sends to receivers that wait, and from an interrupt routine'
of_board_1
ticks 'every 500 5\n'
rows <<ROWS
$routines
*0x1040 = 0x38802000; *0x1044 = 0x38a00002; *0x1048 = 0x38c00000; *0x104c = 0x38e00001 => 947920896 | 950009858 | 952107008 | 954204161
*0x1050 = 0x490001c2; *0x1060 = 0x38a00002; *0x1064 = 0x38c00001; *0x1068 = 0x490001c3 => 1224737218 | 950009858 | 952107009 | 1224737219
*0x106c = 0x490002c3; *0x1070 = 0x90603000; *0x1074 = 0x49000022 => 1224737475 | -1872744448 | 1224736802
*0x2000 = 0x61626364; *0x2004 = 0x65666768 => 1633837924 | 1701209960
msgQCreate 2, 8, 0 => 2
sp 0x1000, 2, 0x3100, 3, -1, 0, 0x3200; taskDelay 1 => $(spawned 3 1)
*0x3204 = 9; *0x3100 => 9 | 0
msgQSend 2, 0x2000, 5, 0, 0; taskDelay 1 => 0 | 0
*0x3100; *0x3200; *0x3204; msgQNumMsgs 2 => 1633837824 | 3 | 0 | 0
sp 0x1000, 2, 0x3110, 8, -1, 0, 0x3210; wdCreate; wdStart 5, 1, 0x1040, 2 => task spawned: id = 0x4, name = t2 | 4 | 5 | 0
taskDelay 1; taskDelay 1 => 0 | 0
*0x3110; *0x3210; msgQNumMsgs 2 => 1633812480 | 2 | 0
wdStart 5, 1, 0x1060, 2; taskDelay 1; *0x3000 => 0 | 0 | 4259842
ROWS

# Each pair waits in the order 3, 4 and 6, 7; the second of a pair has the priority 50.
shows 'receivers stand by arrival, or by priority'
of_board_1
ticks 'every 500 6\n'
rows <<ROWS
$routines
$words
msgQCreate 2, 8, 0 => 2
sp 0x1000, 2, 0x3100, 8, -1; taskDelay 1 => $(spawned 3 1)
sp 0x1000, 2, 0x3110, 8, -1; taskDelay 1 => $(spawned 4 2)
taskPrioritySet 4, 50; msgQSend 2, 0x2000, 3, 0, 0; *0x3100; *0x3110 => 0 | 0 | 1869505792 | 0
msgQCreate 2, 8, 1 => 5
sp 0x1000, 5, 0x3120, 8, -1; taskDelay 1 => $(spawned 6 3)
sp 0x1000, 5, 0x3130, 8, -1; taskDelay 1 => $(spawned 7 4)
taskPrioritySet 7, 50; msgQSend 5, 0x2000, 3, 0, 0; *0x3120; *0x3130 => 0 | 0 | 0 | 1869505792
ROWS

shows 'an urgent message is in front, and what there is no room for is lost'
rows <<ROWS
$words
msgQCreate 3, 8, 0 => 2
msgQSend 2, 0x2000, 3, 0, 0; msgQSend 2, 0x2003, 3, 0, 0; msgQSend 2, 0x2006, 3, 0, 1 => 0 | 0 | 0
msgQReceive 2, 0x3000, 8, 0; *0x3000 => 3 | 1936291840
msgQReceive 2, 0x3010, 2, 0; *0x3010 => 2 | 1869479936
msgQReceive 2, 0x3020, 8, 0; *0x3020; msgQNumMsgs 2 => 3 | 1953984256 | 0
ROWS

# "abcd" is written over the front of "stuvwxyz"; the task sends four bytes from the third on.
shows 'a sender that waits sends what the receive has just written'
of_board_1
ticks 'every 500 2\n'
rows <<ROWS
$routines
*0x2000 = 0x61626364; *0x3100 = 0x73747576; *0x3104 = 0x7778797a => 1633837924 | 1937012086 | 2004384122
msgQCreate 1, 4, 0 => 2
msgQSend 2, 0x2000, 4, 0, 0; *0x3200 = 9 => 0 | 9
sp 0x1020, 2, 0x3102, 4, -1, 0, 0x3200; taskDelay 1 => $(spawned 3 1)
msgQReceive 2, 0x3100, 4, 0; msgQReceive 2, 0x3110, 4, 0 => 4 | 4
*0x3100; *0x3104; *0x3110; taskDelay 1; *0x3200 => 1633837924 | 2004384122 | 1667528568 | 0 | 0
ROWS

shows 'a sender goes on for each message that is taken: the first in line, and an urgent one is in front'
of_board_1
ticks 'every 500 4\n'
rows <<ROWS
$routines
$words
*0x3200 = *0x3210 = 9; msgQCreate 2, 8, 1 => 9 | 2
msgQSend 2, 0x2000, 3, 0, 0; msgQSend 2, 0x2003, 3, 0, 0 => 0 | 0
sp 0x1020, 2, 0x2006, 3, -1, 0, 0x3200; taskDelay 1 => $(spawned 3 1)
sp 0x1020, 2, 0x2009, 3, -1, 1, 0x3210; taskPrioritySet 4, 50; taskDelay 1 => task spawned: id = 0x4, name = t2 | 4 | 0 | 0
msgQReceive 2, 0x3000, 8, 0; *0x3000; msgQNumMsgs 2 => 3 | 1869505792 | 2
taskDelay 1; *0x3200; *0x3210 => 0 | 9 | 0
msgQReceive 2, 0x3010, 8, 0; *0x3010; msgQReceive 2, 0x3020, 8, 0; *0x3020 => 3 | 1952804352 | 3 | 1953984256
msgQNumMsgs 2; taskDelay 1; *0x3200 => 1 | 0 | 0
ROWS

shows 'a wait that ended by its time is forgotten, whether its task waits there again or elsewhere'
of_board_1
ticks 'every 500 6\n'
rows <<ROWS
$routines
*0x2000 = 0x61626364 => 1633837924
msgQCreate 2, 8, 0; msgQCreate 2, 8, 0 => 2 | 3
msgQReceive 2, 0x3000, 2, 1; errnoGet => -1 | 3997700
sp 0x1020, 2, 0x2000, 4, 0, 0, 0x3200; msgQReceive 2, 0x3010, 4, -1 => task spawned: id = 0x4, name = t1 | 4 | 4
*0x3000; *0x3010 => 0 | 1633837924
msgQReceive 2, 0x3000, 2, 1 => -1
sp 0x1020, 2, 0x2000, 4, 0, 0, 0x3200; msgQReceive 3, 0x3020, 4, 2 => task spawned: id = 0x5, name = t2 | 5 | -1
*0x3000; *0x3020; msgQNumMsgs 2 => 0 | 0 | 1
ROWS

shows 'a deletion ends the waits of senders and of receivers'
of_board_1
ticks 'every 500 3\n'
rows <<ROWS
$routines
msgQCreate 1, 8, 0; msgQCreate 1, 8, 0; msgQSend 2, 0, 8, 0, 0 => 2 | 3 | 0
sp 0x1020, 2, 0, 8, -1, 0, 0x3200; taskDelay 1 => $(spawned 4 1)
sp 0x1000, 3, 0x3000, 8, -1, 0, 0x3210; taskDelay 1 => $(spawned 5 2)
msgQDelete 2; msgQDelete 3; taskDelay 1 => 0 | 0 | 0
*0x3200; *0x3204; *0x3210; *0x3214 => -1 | 3997699 | -1 | 3997699
ROWS

# `mtctr r3`, that often `li r3, 1`, `li r4, 1`, `li r5, 0`, a call of msgQCreate and `bdnz`, and back to the shell.
shows 'as many queues as there may be'
of_board_1
rows <<'ROWS'
*0x1000 = 0x7c6903a6; *0x1004 = 0x38600001; *0x1008 = 0x38800001; *0x100c = 0x38a00000 => 2087256998 | 945815553 | 947912705 | 950009856
*0x1010 = 0x490001b3; *0x1014 = 0x4200fff0; *0x1018 = 0x49000012 => 1224737203 | 1107361776 | 1224736786
(0x1000)(256) => 257
msgQCreate 1, 1, 0; errnoGet => 0 | 196611
msgQDelete 7; msgQCreate 1, 1, 0 => 0 | 258
ROWS
