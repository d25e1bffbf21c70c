#!/bin/sh
# Plays the session of this folder under tick files that differ in one number, the phase: the time of the first tick. The
# others follow every 1,000 steps, so the phases 0 to 999 are all that there are. It tells in which order the two tasks end.
#
# usage: campaign.sh ticks PHASE             writes the tick file of a phase
#        campaign.sh play PROGRAM PHASE      plays a phase, and writes the session
#        campaign.sh case PROGRAM PHASE..    plays phases, and writes a line for each: the phase, and the tasks in the order in
#                                            which they end
#        campaign.sh ranges [PHASES]         reads the lines of the phases from 0 on, in any order, and writes a line for each
#                                            range of phases with one order; it refuses if a phase is missing or stands twice
#        campaign.sh all PROGRAM [PHASES]    plays the phases from 0 on, 1,000 or fewer, side by side on all cores, and writes
#                                            their ranges
set -eu
here=$(cd "$(dirname "$0")" && pwd)
period=1000
steps=20000

refuse() {
    echo "campaign.sh: $1" >&2
    exit 2
}

# Refuses what is no number from $2 to $3.
check_number() {
    case $1 in '' | *[!0-9]* | ?????*) refuse "$1 is not a number from $2 to $3" ;; esac
    [ "$1" -ge "$2" ] && [ "$1" -le "$3" ] || refuse "$1 is not a number from $2 to $3"
}

ticks() {
    check_number "$1" 0 $((period - 1))
    for k in 0 1 2 3 4; do
        echo "tick $(($1 + k * period))"
    done
}

play() {
    ticks "$2" >"$work/ticks.txt"
    "$1" --console "$here/console.txt" --ticks "$work/ticks.txt" --limit "$steps"
}

cases() {
    program=$1
    shift
    for phase in "$@"; do
        play "$program" "$phase" >"$work/session" || refuse "phase $phase ended with status $?"
        printf '%s %s\n' "$phase" "$(grep -xE 'long|short' "$work/session" | tr '\n' ' ')"
    done
}

# Plays the phases of standard input, 20 in one go: by GNU parallel if it is installed, else by xargs.
side_by_side() {
    if command -v parallel >/dev/null; then
        parallel --will-cite -n 20 "$here/campaign.sh" case "$1"
    else
        xargs -P "$(nproc)" -n 20 "$here/campaign.sh" case "$1"
    fi
}

# Joins the lines of phases that follow one another and have one order.
join_ranges() {
    awk 'function tell() { print (first == last ? "phase " first : "phases " first " to " last) ": " order }
        { phase = $1; sub(/^[0-9]+ /, ""); sub(/ $/, "") }
        $0 != order { if (NR > 1) tell(); first = phase; order = $0 }
        { last = phase }
        END { tell() }'
}

# Writes the ranges of the phases 0 to $1 - 1, whose lines stand in any order on standard input.
ranges() {
    sort -n >"$work/lines"
    faults=$(awk -v count="$1" '{ lines[$1]++ }
        END { for (k = 0; k < count; k++) if (lines[k] != 1) { printf " %d", k; delete lines[k] }
            for (k in lines) if (k !~ /^[0-9]+$/ || k + 0 >= count) printf " %s", k }' "$work/lines")
    [ -z "$faults" ] || refuse "not one line for each of $1 phases:$faults"
    join_ranges <"$work/lines"
}

all() {
    seq 0 $(($2 - 1)) | side_by_side "$1" >"$work/told" || refuse 'a phase could not be played'
    ranges "$2" <"$work/told"
}

work=$(mktemp -d)
trap 'rm -rf "$work"' EXIT
form=${1:-}
[ $# -eq 0 ] || shift
case $form:$# in
ticks:1) ticks "$1" ;;
play:2) play "$1" "$2" ;;
case:[2-9] | case:[1-9][0-9]*) cases "$@" ;;
ranges:[01])
    check_number "${1:-$period}" 1 "$period"
    ranges "${1:-$period}"
    ;;
all:[12])
    check_number "${2:-$period}" 1 "$period"
    all "$1" "${2:-$period}"
    ;;
*) sed -n '/^# usage/,/^set/s/^# //p' "$0" >&2; exit 2 ;;
esac
