# Generated sessions: nothing is read, and one line tells of the run.

shows 'a session of one round'
without console.txt
without ticks.txt
plays --generate 1
ends 0 'generated 1: 6 lines, 305 console bytes, 54 steps, 9 ticks, status 0\n' ''

# The prompt has 3 bytes, the line 6, what it tells of the new symbol 38, its value 16, and the next prompt 3.
shows 'the first line of a session, up to the limit'
plays --generate=1 --limit 5
ends 3 'generated 1: 6 lines, 66 console bytes, 5 steps, 0 ticks, status 3\n' 'windplay: limit of 5 steps reached\n'

shows 'a session without a step'
plays --limit 0 --generate 10000
ends 3 'generated 10000: 30003 lines, 0 console bytes, 0 steps, 0 ticks, status 3\n' 'windplay: limit of 0 steps reached\n'

shows 'with no round the files are played'
plays --generate 0
ends 0 "$output" ''

shows 'with no round the files have to be there'
without console.txt
plays --generate=00
ends 2 '' 'windplay: console.txt: not found\n'

for rounds in '' -1 +1 0x10 1e3 10001 00000000000001; do
    shows "generated rounds of '$rounds' are refused"
    plays "--generate=$rounds"
    refuses "'--generate <N>' takes 1 to 13 digits, and at most 10000"
done

shows 'standard output that is closed, after a generated run'
plays_with_out_closed --generate 1
ends 5 '' 'windplay: writing failed\n'
