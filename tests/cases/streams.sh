# Standard output and standard error that fail.

shows 'standard output that is closed'
plays_with_out_closed
ends 5 '' 'windplay: writing failed\n'

shows 'standard output that nobody reads any more'
plays_without_a_reader
ends 5 '' 'windplay: writing failed\n'

# 10,000 lines write more than a pipe holds.
shows 'a reader of standard output that goes away'
awk 'BEGIN { for (i = 0; i < 10000; i++) print "1+2" }' >"$work/session/console.txt"
plays_before_a_reader_of 6
ends 5 '-> 1+2' 'windplay: writing failed\n'

shows 'standard output that is closed, if nothing is written'
plays_with_out_closed --limit 0
ends 3 '' 'windplay: limit of 0 steps reached\n'

shows 'standard output that is closed, if the words are refused'
plays_with_out_closed x
refuses "unexpected argument 'x' found"

shows 'standard output that is closed, if a file is not there'
without ticks.txt
plays_with_out_closed
ends 2 '' 'windplay: ticks.txt: not found\n'

# A text that cannot be written changes nothing else.
shows 'standard error that is closed, at the limit'
plays_with_err_closed --limit 5
ends 3 "$output" ''

shows 'standard error that is closed, if the words are refused'
plays_with_err_closed x
ends 1 '' ''

shows 'standard error that is closed, at a quiet end'
plays_with_err_closed
ends 0 "$output" ''

if [ -c /dev/full ]; then
    shows 'standard output that takes no byte'
    plays_out_to /dev/full
    ends 5 '' 'windplay: writing failed\n'

    shows 'standard output that takes no byte, if nothing is written'
    plays_out_to /dev/full --limit 0
    ends 3 '' 'windplay: limit of 0 steps reached\n'

    shows 'standard output that takes no byte, after the limit'
    plays_out_to /dev/full --limit 1
    ends 5 '' 'windplay: writing failed\n'

    shows 'standard error that takes no byte, at the limit'
    plays_err_to /dev/full --limit 5
    ends 3 "$output" ''

    shows 'standard error that takes no byte, if the words are refused'
    plays_err_to /dev/full x
    ends 1 '' ''

    shows 'standard error that takes no byte, at a bad tick line'
    ticks 'tock\n'
    plays_err_to /dev/full
    ends 7 '' ''
fi
