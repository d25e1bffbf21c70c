# The campaign of examples/campaign, over all its phases. `long` makes its 704 steps from time 28 on, at the earliest, and prints with
# the last of them, at time 731. A tick that comes meanwhile lets `short` go first. So does the tick at 25, when the shell's task
# waits for its line, which is not there yet.

shows 'a campaign tells which phases of the ticks change the order of two tasks'
status=0
"$here/../examples/campaign/campaign.sh" all "$program" >"$work/stdout" 2>"$work/stderr" || status=$?
ends 0 'phases 0 to 24: long short\nphase 25: short long\nphases 26 to 27: long short\nphases 28 to 731: short long\nphases 732 to 999: long short\n' ''

shows 'a phase of a campaign is played by hand'
status=0
"$here/../examples/campaign/campaign.sh" case "$program" 25 732 >"$work/stdout" 2>"$work/stderr" || status=$?
ends 0 '25 short long \n732 long short \n' ''

shows 'a campaign has 1,000 phases at most'
status=0
"$here/../examples/campaign/campaign.sh" all "$program" 1001 >"$work/stdout" 2>"$work/stderr" || status=$?
ends 2 '' 'campaign.sh: 1001 is not a number from 1 to 1000\n'

# Joins the lines of phases that stand in the file `lines`.
joins() {
    status=0
    "$here/../examples/campaign/campaign.sh" ranges "$@" <"$work/session/lines" >"$work/stdout" 2>"$work/stderr" || status=$?
}

shows 'ranges joins the lines of phases in any order'
file lines '2 short long \n0 long short \n1 long short \n'
joins 3
ends 0 'phases 0 to 1: long short\nphase 2: short long\n' ''

shows 'ranges refuses lines that lack a phase'
file lines '2 short long \n0 long short \n'
joins 3
ends 2 '' 'campaign.sh: not one line for each of 3 phases: 1\n'

shows 'ranges refuses a phase that stands twice, and one beyond the last'
file lines '1 short long \n0 long short \n1 short long \n2 short long \n'
joins 2
ends 2 '' 'campaign.sh: not one line for each of 2 phases: 1 2\n'
