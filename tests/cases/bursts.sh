# Instructions in one go: what may come between two of them comes at its step. What they write, and the steps that they take, were
# worked out by hand from the rules of the machine: sessions.sh tells how many steps a line takes. An instruction takes one, and a
# step of the shell or of an instruction adds 1 to board time.

# At 0x1000 a task of ten instructions: `addi r5, r5, 1` and `stw r5, 0x2000(0)` four times, `nop` and a branch to the first. It begins at
# time 16, with the first tick. After each tick the shell takes five steps and the task eleven, so each tick comes before another of the
# ten: after s steps of the task 4 words are stored for each ten, and one for each two of the rest, at most 4.
shows 'a tick at each of ten instructions'
console '*0x1000 = *0x1008 = *0x1010 = *0x1018 = 0x38a50001; *0x1004 = *0x100c = *0x1014 = *0x101c = 0x90a02000; *0x1020 = 0x60000000; *0x1024 = 0x4bffffdc
sp 0x1000
taskDelay 1; *0x2000; taskDelay 1; *0x2000; taskDelay 1; *0x2000; taskDelay 1; *0x2000; taskDelay 1; *0x2000; taskDelay 1; *0x2000; taskDelay 1; *0x2000; taskDelay 1; *0x2000; taskDelay 1; *0x2000; taskDelay 1; *0x2000; taskDelete 2
'
ticks 'every 16 10\n'
lasts 181 "-> *0x1000 = *0x1008 = *0x1010 = *0x1018 = 0x38a50001; *0x1004 = *0x100c = *0x1014 = *0x101c = 0x90a02000; *0x1020 = 0x60000000; *0x1024 = 0x4bffffdc
value = 950337537 = 0x38a50001
value = -1868554240 = 0x90a02000
value = 1610612736 = 0x60000000
value = 1275068380 = 0x4bffffdc
-> sp 0x1000
task spawned: id = 0x2, name = t1
value = 2 = 0x2
-> taskDelay 1; *0x2000; taskDelay 1; *0x2000; taskDelay 1; *0x2000; taskDelay 1; *0x2000; taskDelay 1; *0x2000; taskDelay 1; *0x2000; taskDelay 1; *0x2000; taskDelay 1; *0x2000; taskDelay 1; *0x2000; taskDelay 1; *0x2000; taskDelete 2
value = 0 = 0x0
value = 0 = 0x0
value = 0 = 0x0
value = 4 = 0x4
value = 0 = 0x0
value = 9 = 0x9
value = 0 = 0x0
value = 13 = 0xd
value = 0 = 0x0
value = 18 = 0x12
value = 0 = 0x0
value = 22 = 0x16
value = 0 = 0x0
value = 27 = 0x1b
value = 0 = 0x0
value = 31 = 0x1f
value = 0 = 0x0
value = 36 = 0x24 = '\$'
value = 0 = 0x0
value = 40 = 0x28 = '('
value = 0 = 0x0
-> "

# At 0x1000 a store of r3 into the next instruction, and one of a loop into an instruction of its own: `li r3, k`, whose k grows at
# each round.
shows 'instructions that are stored and executed next'
rows <<'ROWS'
*0x1000 = 0x90601004; *0x1004 = 0x38600001; *0x1008 = 0x4e800020 => -1872752636 | 945815553 | 1317011488
(0x1000)(0x38600007); (0x1000)(0x38600009); *0x1004 => 7 | 9 | 945815561
*0x1000 = 0x7c6903a6; *0x1004 = 0x80a01010; *0x1008 = 0x38a50001; *0x100c = 0x90a01010 => 2087256998 | -2136993776 | 950337537 | -1868558320
*0x1010 = 0x38600000; *0x1014 = 0x4200fff0; *0x1018 = 0x4e800020 => 945815552 | 1107361776 | 1317011488
(0x1000)(7); (0x1000)(3); *0x1010 => 7 | 10 | 945815562
ROWS

# At 0x1ff8, across the edge of a page, a function that adds 1, 2 and 4 to r3. Others change its words by a byte, a halfword, a reserved
# word, two words that `stmw` stores into both pages, and a word of which each page has a half: it makes the last two `addi r3, r3, 16`
# and `addi r0, r3, 512`.
shows 'instructions that were executed, and are changed'
rows <<'ROWS'
*0x1ff8 = 0x38630001; *0x1ffc = 0x38630002; *0x2000 = 0x38630004; *0x2004 = 0x4e800020 => 946012161 | 946012162 | 946012164 | 1317011488
*0x1010 = 0x98602003; *0x1014 = 0x4e800020 => -1738530813 | 1317011488
*0x1020 = 0xb0602002; *0x1024 = 0x4e800020 => -1335877630 | 1317011488
*0x1030 = 0xbbc03000; *0x1034 = 0xbfc01ffc; *0x1038 = 0x4e800020 => -1145032704 | -1077927940 | 1317011488
*0x1040 = 0x7ca02028; *0x1044 = 0x7c60212d; *0x1048 = 0x4e800020 => 2090868776 | 2086674733 | 1317011488
*0x1050 = 0x90601ffe; *0x1054 = 0x4e800020 => -1872748546 | 1317011488
(0x1ff8)(0); (0x1010)(8); (0x1ff8)(0) => 7 | 8 | 11
(0x1020)(32); (0x1ff8)(0) => 32 | 35
(0x1040)(0x38630040, 0x2000); (0x1ff8)(0) => 946012224 | 67
*0x3000 = 0x38630100; *0x3004 = 0x38630200; (0x1030)(0); (0x1ff8)(0) => 946012416 | 946012672 | 0 | 769
(0x1050)(0x103803); (0x1ff8)(0) => 1062915 | 17
ROWS

# At 0x1000 a loop that receives a message into the instruction at 0x1034, by the call and from the queue that its arguments name, until
# there is none. The three messages are `addi r28, r28, k` with 1, 16 and 256; it returns r28.
shows 'messages that are received into code'
rows <<'ROWS'
*0x1000 = 0x7fa802a6; *0x1004 = 0x7c7f1b78; *0x1008 = 0x7c9e2378; *0x100c = 0x3b800000; *0x1010 = 0x7fe903a6; *0x1014 = 0x7fc3f378 => 2141717158 | 2088704888 | 2090738552 | 998244352 | 2145977254 | 2143548280
*0x1018 = 0x38801034; *0x101c = 0x38a00004; *0x1020 = 0x38c00000; *0x1024 = 0x4e800421; *0x1028 = 0x2c03ffff; *0x102c = 0x41820010 => 947916852 | 950009860 | 952107008 | 1317012513 | 738459647 | 1099038736
*0x1030 = 0x60000000; *0x1034 = 0x60000000; *0x1038 = 0x4bffffd8; *0x103c = 0x7f83e378; *0x1040 = 0x7fa803a6; *0x1044 = 0x4e800020 => 1610612736 | 1610612736 | 1275068376 | 2139349880 | 2141717414 | 1317011488
*0x2000 = 0x3b9c0001; *0x2004 = 0x3b9c0010; *0x2008 = 0x3b9c0100 => 1000079361 | 1000079376 | 1000079616
msgQCreate(4, 4, 0); msgQSend(2, 0x2000, 4, 0, 0); msgQSend(2, 0x2004, 4, 0, 0); msgQSend(2, 0x2008, 4, 0, 0) => 2 | 0 | 0 | 0
(0x1000)(&msgQReceive, 2); *0x1034 => 273 | 1000079616
ROWS

# Three times `nop` at 0x1000, and after them a word that is no instruction.
trap='-> *0x1000 = *0x1004 = *0x1008 = 0x60000000
value = 1610612736 = 0x60000000
-> (0x100c)()

exception illegal in tShell (0x1) at 0x0000100c
-> (0x1008)()

exception illegal in tShell (0x1) at 0x0000100c
-> (0x1000)()
'
shows 'an exception at the first instruction, at the second and at the fourth'
console '*0x1000 = *0x1004 = *0x1008 = 0x60000000\n(0x100c)()\n(0x1008)()\n(0x1000)()\n'
lasts 24 "$trap
exception illegal in tShell (0x1) at 0x0000100c
-> "

shows 'a limit of steps before an exception'
console '*0x1000 = *0x1004 = *0x1008 = 0x60000000\n(0x100c)()\n(0x1008)()\n(0x1000)()\n'
plays --limit 22
ends 3 "$trap" 'windplay: limit of 22 steps reached\n'

shows 'a limit of steps at an exception'
console '*0x1000 = *0x1004 = *0x1008 = 0x60000000\n(0x100c)()\n(0x1008)()\n(0x1000)()\n'
plays --limit 23
ends 3 "$trap
exception illegal in tShell (0x1) at 0x0000100c
" 'windplay: limit of 23 steps reached\n'

# At 0x1000 `lwarx r5, 0, r3`, `nop`, `stwcx. r4, 0, r3`, `mfcr r3` and `blr`. They are executed at the times 10 to 14.
for row in '10 7 536870912' '11 0 0' '12 0 0' '13 7 536870912'; do
    # shellcheck disable=SC2086 # a row is three numbers
    set -- $row
    shows "a reservation, and a tick at time $1"
    ticks "tick $1\\n"
    rows <<ROWS
*0x1000 = 0x7ca01828; *0x1004 = 0x60000000; *0x1008 = 0x7c80192d; *0x100c = 0x7c600026; *0x1010 = 0x4e800020 => 2090866728 | 1610612736 | 2088769837 | 2086666278 | 1317011488
(0x1000)(0x2000, 7); *0x2000 => $3 | $2
ROWS
done

# At 0x1000 a function that adds nine times 1 to r3, as often as r3 says. The ticks at 20, 40 and 60 come after `intUnlock`.
shows 'ticks that are due while a function holds interrupts back'
console '*0x1000 = 0x7c6903a6; *0x1004 = *0x1008 = *0x100c = *0x1010 = *0x1014 = *0x1018 = *0x101c = *0x1020 = *0x1024 = 0x38630001; *0x1028 = 0x4200ffdc; *0x102c = 0x4e800020
intLock; (0x1000)(5); tickGet; intUnlock 0; tickGet
'
ticks 'every 20 3\n'
lasts 85 "-> *0x1000 = 0x7c6903a6; *0x1004 = *0x1008 = *0x100c = *0x1010 = *0x1014 = *0x1018 = *0x101c = *0x1020 = *0x1024 = 0x38630001; *0x1028 = 0x4200ffdc; *0x102c = 0x4e800020
value = 2087256998 = 0x7c6903a6
value = 946012161 = 0x38630001
value = 1107361756 = 0x4200ffdc
value = 1317011488 = 0x4e800020
-> intLock; (0x1000)(5); tickGet; intUnlock 0; tickGet
value = 0 = 0x0
value = 50 = 0x32 = '2'
value = 0 = 0x0
value = 0 = 0x0
value = 3 = 0x3
-> "

# At 0x1000 a function that adds 1 to the counter in slot 2 and its word to r3, as often as r3 says; then the word is one of the empty
# slot 3, at 0x1014.
shows 'a device among instructions'
rows <<'ROWS'
*0x1000 = 0x7c6903a6; *0x1004 = 0x3ca0e000; *0x1008 = 0x38600000; *0x100c = 0x38800001; *0x1010 = 0x90852000 => 2087256998 | 1017176064 | 945815552 | 947912705 | -1870323712
*0x1014 = 0x80c52000; *0x1018 = 0x7c633214; *0x101c = 0x4200fff4; *0x1020 = 0x4e800020 => -2134564864 | 2086875668 | 1107361780 | 1317011488
(0x1000)(4); (0x1000)(2); *0xe0002000 => 10 | 11 | 6
*0x1014 = 0x80c53000 => -2134560768
(0x1000)(3); 1 =>  | exception access in tShell (0x1) at 0x00001014
*0xe0002000 => 7
ROWS

# At 0x1000 a routine that adds 1 to the word at 0x2000, as often as r3 says. It begins with the tick at 40 and ends at 123; the ticks at 80
# and at 120 come then, before the shell's task goes on.
shows 'an interrupt routine, and ticks that are due meanwhile'
console '*0x1000 = 0x7c6903a6; *0x1004 = 0x80a02000; *0x1008 = 0x38a50001; *0x100c = 0x90a02000; *0x1010 = 0x4200fff4; *0x1014 = 0x4e800020
wdStart(wdCreate(), 1, 0x1000, 20)
taskDelay 1; tickGet; *0x2000
'
ticks 'every 40 3\n'
lasts 119 '-> *0x1000 = 0x7c6903a6; *0x1004 = 0x80a02000; *0x1008 = 0x38a50001; *0x100c = 0x90a02000; *0x1010 = 0x4200fff4; *0x1014 = 0x4e800020
value = 2087256998 = 0x7c6903a6
value = -2136989696 = 0x80a02000
value = 950337537 = 0x38a50001
value = -1868554240 = 0x90a02000
value = 1107361780 = 0x4200fff4
value = 1317011488 = 0x4e800020
-> wdStart(wdCreate(), 1, 0x1000, 20)
value = 0 = 0x0
-> taskDelay 1; tickGet; *0x2000
value = 0 = 0x0
value = 3 = 0x3
value = 20 = 0x14
-> '
