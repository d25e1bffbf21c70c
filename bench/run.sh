#!/bin/sh
# Figures of speed and memory, a line each. It proves nothing, and is no part of the gate.
#
# usage: bench/run.sh [PROGRAM]     without a PROGRAM it proves and builds the one of this clone
set -eu
here=$(cd "$(dirname "$0")" && pwd)
work=$(mktemp -d)
trap 'rm -rf "$work"' EXIT

if [ $# -gt 0 ]; then
    program=$(cd "$(dirname "$1")" && pwd)/$(basename "$1")
else
    (cd "$here/../crates/windplay" && rt run >"$work/log" 2>&1) || { cat "$work/log" >&2; exit 1; }
    program=$here/../crates/windplay/out/windplay
fi

# Plays the words in a folder. Sets `status`, `seconds`, and `peak` in KiB if the tool that tells it is installed.
measure() {
    folder=$1
    shift
    status=0
    peak=-
    start=$(date +%s%N)
    if [ -x /usr/bin/time ]; then
        (cd "$folder" && /usr/bin/time -q -o "$work/peak" -f %M "$program" "$@" >/dev/null 2>&1) || status=$?
        peak=$(tail -n 1 "$work/peak")
    else
        (cd "$folder" && "$program" "$@" >/dev/null 2>&1) || status=$?
    fi
    seconds=$(awk "BEGIN { printf \"%.3f\", ($(date +%s%N) - $start) / 1e9 }")
}

# Tells how many of something come in a second.
tell() {
    awk "BEGIN { printf \"%-36s %12.0f %s a second (%s in %s s)\n\", \"$1\", $2 / ($seconds + 1e-9), \"$3\", \"$2\", \"$seconds\" }"
}

# Makes a number of steps of a session that doesn't end before, with these further words, and tells how many come in a second.
steps() {
    name=$1
    folder=$2
    limit=$3
    shift 3
    measure "$folder" --limit "$limit" "$@"
    case $status in
        3) tell "$name" "$limit" steps ;;
        *) printf '%-36s ended with status %s\n' "$name" "$status" ;;
    esac
}

# Plays a console to its end, and tells how many of something come in a second.
console() {
    name=$1
    folder=$2
    count=$3
    what=$4
    measure "$folder" --limit 1000000000000
    if [ "$status" -eq 0 ]; then tell "$name" "$count" "$what"; else printf '%-36s ended with status %s\n' "$name" "$status"; fi
}

# Tells how long one of something takes, in a run that took that many seconds more than another.
each() {
    name=$1
    count=$2
    less=$3
    if [ "$status" -eq 0 ]; then
        awk "BEGIN { t = $seconds - $less; printf \"%-36s %12.4f ms each (%s in %.3f s)\\n\", \"$name\", 1000 * t / $count, \"$count\", t }"
    else
        printf '%-36s ended with status %s\n' "$name" "$status"
    fi
}

# Makes a module with a number of globals, each a word that holds the address of a symbol of the table below.
module() {
    awk "BEGIN { print \".data\"; for (i = 1; i <= $2; i++) printf \".globl s%d\\ns%d: .long t%d\\n\", i, i, i }" |
        powerpc-linux-gnu-as -o "$1" -
}

# Makes a module with 50,000 globals that are numbers.
table() {
    awk 'BEGIN { for (i = 1; i <= 50000; i++) printf ".globl t%d\n.set t%d, %d\n", i, i, i }' | powerpc-linux-gnu-as -o "$1" -
}

# Loads a module with a number of globals a number of times, after the table, and tells how long a load takes.
loads() {
    globals=$1
    times=$2
    module "$work/loads/m.o" "$globals"
    awk "BEGIN { print \"ld < t.o\"; for (i = 0; i < $times; i++) print \"ld < m.o\" }" >"$work/loads/console.txt"
    if (cd "$work/loads" && "$program" 2>/dev/null) | grep -q -e '^ld: ' -e '^undefined symbol'; then
        printf '%-36s refused\n' "load, symbols: $globals"
        return
    fi
    measure "$work/loads"
    each "load, symbols: $globals" "$times" "$table_seconds"
}

# Lines of 25 allocations each, as many as asked.
allocations() {
    awk "BEGIN { for (i = 0; i < $1; i++) { for (k = 1; k < 25; k++) printf \"malloc 1;\"; print \"malloc 1\" } }"
}

# A folder with one task that runs the loop of four instructions, and a number of others that make this call and never go on.
crowd() {
    mkdir -p "$work/crowd"
    : >"$work/crowd/ticks.txt"
    {
        sed -n 1p "$here/tasks-1/console.txt"
        echo 's = semBCreate(0, 0)'
        awk "BEGIN { for (i = 0; i < $1; i++) print \"sp $2\" }"
        echo 'sp 0x1000, 0x2000'
    } >"$work/crowd/console.txt"
}

# The console of a chain of 250 owners: each waits for the mutex of the one before, the first for a semaphore. Then the shell's task takes
# the last mutex a number of times, each time more urgent than before, and waits for a tick.
chain() {
    mkdir -p "$work/chain"
    echo 'every 100 1000' >"$work/chain/ticks.txt"
    awk "BEGIN {
        print \"*0x1000 = 0x7c9f2378; *0x1004 = 0x3880ffff; *0x1008 = 0x49000173; *0x100c = 0x7fe3fb78; *0x1010 = 0x3880ffff; *0x1014 = 0x49000173\"
        print \"semBCreate 0, 0\"
        for (i = 0; i < 250; i++) printf \"semMCreate 13; sp 0x1000, %d, %d; taskDelay 1\\n\", 2 * i + 3, i == 0 ? 2 : 2 * i + 1
        for (i = 1; i <= $1; i++) printf \"taskPrioritySet 0, %d; semTake 501, 1\\n\", 100 - i
    }" >"$work/chain/console.txt"
}

for tasks in 1 2 16 250; do
    steps "instruction loop, tasks: $tasks" "$here/tasks-$tasks" 20000000
done
for tasks in 1 15 249; do
    crowd "$tasks" 'semTake, s, -1'
    steps "the same, and tasks that wait: $tasks" "$work/crowd" 20000000
    crowd "$tasks" 'taskDelay, 1000000000'
    steps "the same, and delayed tasks: $tasks" "$work/crowd" 20000000
done
steps 'a loop that rewrites itself' "$here/own-code" 20000000
"$here/loops.sh" "$program"
steps 'kernel calls of a task' "$here/task-calls" 20000000

# 400 lines of 31 calls each.
mkdir "$work/calls" "$work/lines" "$work/start" "$work/blocks" "$work/loads"
: >"$work/calls/ticks.txt"
awk 'BEGIN { for (i = 0; i < 400; i++) { for (k = 0; k < 30; k++) printf "tickGet;"; print "tickGet" } }' >"$work/calls/console.txt"
console 'kernel calls of the shell' "$work/calls" 12400 calls

steps 'idle ticks' "$here/idle-ticks" 1000000
mkdir "$work/sleepers"
cp "$here/idle-ticks/ticks.txt" "$work/sleepers/ticks.txt"
awk 'BEGIN { for (i = 0; i < 250; i++) print "sp taskDelay, 1000000000" }' >"$work/sleepers/console.txt"
steps 'idle ticks, delayed tasks: 250' "$work/sleepers" 1000000
steps 'the same, profile 2' "$work/sleepers" 1000000 --profile 2

chain 0
measure "$work/chain" --limit 1000000000000
chain_seconds=$seconds
measure "$work/chain" --limit 1000000000000 --profile 2
exact_seconds=$seconds
chain 50
measure "$work/chain" --limit 1000000000000
each 'semTake along 250 owners' 50 "$chain_seconds"
measure "$work/chain" --limit 1000000000000 --profile 2
each 'the same, profile 2' 50 "$exact_seconds"

# A console of 20,000 lines.
: >"$work/lines/ticks.txt"
awk 'BEGIN { for (i = 0; i < 20000; i++) print "1+2" }' >"$work/lines/console.txt"
console 'a long console' "$work/lines" 20000 lines
lines_peak=$peak

# 10,000 blocks, and 5,000 more after them.
: >"$work/blocks/ticks.txt"
allocations 400 >"$work/blocks/console.txt"
measure "$work/blocks" --limit 1000000000000
blocks_seconds=$seconds
each 'malloc, the first 10,000 blocks' 10000 0
allocations 600 >"$work/blocks/console.txt"
measure "$work/blocks" --limit 1000000000000
each 'malloc, after 10,000 blocks' 5000 "$blocks_seconds"

# 10,000 symbols by loads of modules of three sizes, after a table of 50,000.
if command -v powerpc-linux-gnu-as >/dev/null; then
    : >"$work/loads/ticks.txt"
    table "$work/loads/t.o"
    echo 'ld < t.o' >"$work/loads/console.txt"
    measure "$work/loads"
    table_seconds=$seconds
    each 'load, symbols: 50000' 1 0
    loads 100 100
    loads 1000 10
    loads 10000 1
else
    printf '%-36s not installed\n' 'loads (powerpc-linux-gnu-as)'
fi

: >"$work/start/ticks.txt"
: >"$work/start/console.txt"
start=$(date +%s%N)
for _ in 1 2 3 4 5 6 7 8 9 10 11 12 13 14 15 16 17 18 19 20; do
    (cd "$work/start" && "$program" >/dev/null)
done
awk "BEGIN { printf \"%-36s %12.2f ms\n\", \"start and end of a session\", ($(date +%s%N) - $start) / 20e6 }"
measure "$work/start"
printf '%-36s %12s KiB\n' 'peak memory, an empty console' "$peak"
printf '%-36s %12s KiB\n' 'peak memory, a long console' "$lines_peak"
