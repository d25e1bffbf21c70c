# An interrupt of the console in each state of the shell's task: its wait, its delay and its marks go, and what it owns stays.

# Plays lines that come at once; the last leaves the shell's task in the state to be tested. At 500 comes 0x03, which
# ends its line, and at 600 another line. After each of the two stands what the shell writes of it, with the prompts.
aborts() {
    printf '%b' "$1" >"$work/session/console.txt"
    length=$(wc -c <"$work/session/console.txt")
    printf '%b' "\\0003$3" >>"$work/session/console.txt"
    rest=$(($(wc -c <"$work/session/console.txt") - length - 1))
    ticks "rx 0 $length\\nrx 500 1\\nrx 600 $rest\\n"
    plays
    ends 0 "$1$2\\n-> $3$4-> " ''
}

shows 'a delay ends'
aborts 'taskDelay 1000\n' '-> ' 'tickGet\n' 'value = 0 = 0x0\n'

shows 'a wait for a semaphore ends, and the semaphore stays empty'
aborts 's = semBCreate(0, 0); semTake s, -1\n' '-> new symbol "s" added to symbol table.\nvalue = 2 = 0x2\n' \
    'semTake s, 0\n' 'value = -1 = 0xffffffff\n'

shows 'a wait for a message ends, and a message that is sent then is held'
aborts 'q = msgQCreate(1, 8, 0); msgQReceive q, malloc(16), 8, -1\n' '-> new symbol "q" added to symbol table.\nvalue = 2 = 0x2\n' \
    'msgQSend q, "a", 1, 0, 0; msgQNumMsgs q\n' 'value = 0 = 0x0\nvalue = 1 = 0x1\n'

shows 'a wait for room in a queue ends, and its message is not sent'
aborts 'q = msgQCreate(1, 8, 0); msgQSend q, "a", 1, 0, 0; msgQSend q, "b", 1, -1, 0\n' \
    '-> new symbol "q" added to symbol table.\nvalue = 2 = 0x2\nvalue = 0 = 0x0\n' \
    'msgQReceive q, malloc(16), 8, 0; msgQNumMsgs q\n' 'value = 1 = 0x1\nvalue = 0 = 0x0\n'

shows 'a wait for a mutex ends, and it stays owned by a task that has ended'
aborts 'taskPrioritySet 0, 200\nm = semMCreate(13); sp semTake, m, -1\nsemTake m, -1\n' \
    '-> value = 0 = 0x0\n-> new symbol "m" added to symbol table.\nvalue = 2 = 0x2\ntask spawned: id = 0x3, name = t1\nvalue = 3 = 0x3\n-> ' \
    'taskIdVerify 3; semTake m, 0\n' 'value = -1 = 0xffffffff\nvalue = -1 = 0xffffffff\n'

# The spawned task calls taskSafe, and is then delayed for nine ticks.
shows 'a wait for the end of a safe section ends, and the task lives on'
of_board_1
aborts 'taskPrioritySet 0, 200\n*0x1000 = 0x490000d3; *0x1004 = 0x38600009; *0x1008 = 0x490000a3\nsp 0x1000\ntaskDelete 2\n' \
    '-> value = 0 = 0x0\n-> value = 1224736979 = 0x490000d3\nvalue = 945815561 = 0x38600009\nvalue = 1224736931 = 0x490000a3\n-> task spawned: id = 0x2, name = t1\nvalue = 2 = 0x2\n-> ' \
    'taskIdVerify 2\n' 'value = 0 = 0x0\n'

shows 'a suspension ends'
aborts 'taskSuspend 0\n' '-> ' '1\n' 'value = 1 = 0x1\n'

shows 'a mutex stays owned'
aborts 'm = semMCreate(13); semTake m, -1; taskDelay 1000\n' '-> new symbol "m" added to symbol table.\nvalue = 2 = 0x2\nvalue = 0 = 0x0\n' \
    'semGive m; semGive m\n' 'value = 0 = 0x0\nvalue = -1 = 0xffffffff\n'

shows 'a safe section stays'
aborts 'taskSafe; taskDelay 1000\n' '-> value = 0 = 0x0\n' 'taskUnsafe; taskUnsafe\n' 'value = 0 = 0x0\nvalue = -1 = 0xffffffff\n'

shows 'interrupts are held back no more'
aborts 'intLock; taskDelay 1000\n' '-> value = 0 = 0x0\n' 'intLock; intLock\n' 'value = 0 = 0x0\nvalue = 1 = 0x1\n'

shows 'the lock on other tasks goes'
aborts 'taskLock; taskDelay 1000\n' '-> value = 0 = 0x0\n' 'taskUnlock; errnoGet\n' 'value = 0 = 0x0\nvalue = 0 = 0x0\n'

shows 'running code is left, and the rest of its line goes'
aborts '*0x1000 = 0x48000000\n(0x1000)(); 2\n' '-> value = 1207959552 = 0x48000000\n-> ' '1\n' 'value = 1 = 0x1\n'
