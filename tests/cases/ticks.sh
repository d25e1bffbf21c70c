# When the events of a tick file come. What is written was worked out by hand from the rules of the file and of the machine.

# At 0x1000 a task that sleeps for a tick and puts 7 at 0x2000. The shell has its priority, and waits for its last line, which comes at the time of
# the tick: whoever's event comes first runs first.
lines='*0x1000 = 0x38600001; *0x1004 = 0x490000a3; *0x1008 = 0x38600007; *0x100c = 0x90602000; *0x1010 = 0x49000002
taskPrioritySet 0, 100; sp 0x1000
*0x2000
'
first=$((${#lines} - 8))
written="*0x1000 = 0x38600001; *0x1004 = 0x490000a3; *0x1008 = 0x38600007; *0x100c = 0x90602000; *0x1010 = 0x49000002
taskPrioritySet 0, 100; sp 0x1000
-> value = 945815553 = 0x38600001
value = 1224736931 = 0x490000a3
value = 945815559 = 0x38600007
value = -1872748544 = 0x90602000
value = 1224736770 = 0x49000002
-> value = 0 = 0x0
task spawned: id = 0x2, name = t1
value = 2 = 0x2
-> *0x2000
"

shows 'a tick before bytes that come at its time'
of_board_1
console "$lines"
ticks "rx 0 $first\\ntick 200\\nrx 200 8\\n"
plays
ends 0 "${written}value = 7 = 0x7\\n-> " ''

shows 'bytes before a tick that comes at their time'
of_board_1
console "$lines"
ticks "rx 0 $first\\nrx 200 8\\ntick 200\\n"
plays
ends 0 "${written}value = 0 = 0x0\\n-> " ''

# Ticks at 0, 2, 3, 4, 6, 6, 8 and 9. The fourth step of the shell, at time 3, is the first tickGet.
shows 'the ticks of several lines come by their times'
console 'tickGet\ntickGet\n'
ticks 'every 3 3\n\nrx 0 8\nevery 2 4\r\ntick 0\nrx 500 8\n'
plays
ends 0 'tickGet\n-> value = 3 = 0x3\n-> tickGet\nvalue = 8 = 0x8\n-> ' ''

shows 'a line of 4,294,967,295 ticks'
ticks 'every 1 4294967295'
plays --limit 1000
ends 3 "$output" 'windplay: limit of 1000 steps reached\n'

# Of 37,449 lines each gives a tick at one time, and one more the same time after that.
shows 'a tick file of 1 MiB'
console ''
yes 'every 4294967295 4294967295' | head -n 37449 >"$work/session/ticks.txt"
plays --limit 100000
ends 3 '-> ' 'windplay: limit of 100000 steps reached\n'
