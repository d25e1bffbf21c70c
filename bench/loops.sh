#!/bin/sh
# Speed of five loops in C by each PROGRAM, beside emulators over the same code: million instructions a second of processor time,
# the best of five runs of each, which take turns, less a run that does nothing. The numbers of instructions are those that the
# first PROGRAM counts. It proves nothing, and is no part of the gate. An emulator that isn't installed is left out:
# - `qemu-ppc` one instruction at a time, and by default (Debian's qemu-user);
# - `psim`, an interpreter, from Debian's gdb-source: `configure --target=powerpc-eabi --disable-gdb`, `make MAKEINFO=true all-sim`,
#   then sim/ppc in PATH;
# - `qemu-system-ppc`, which records a run and replays it (Debian's qemu-system-ppc).
#
# usage: bench/loops.sh PROGRAM..
set -eu
[ $# -gt 0 ] || { echo "usage: $0 PROGRAM.." >&2; exit 2; }
here=$(cd "$(dirname "$0")" && pwd)

# Says whether a tool is installed, and tells if it isn't.
has() {
    command -v "$1" >/dev/null && return
    printf '%-36s not installed\n' "loops ($1)"
    return 1
}

has powerpc-linux-gnu-gcc || exit 0
for program in "$@"; do
    case $program in
    *[[:space:]]*) false ;;
    /*) [ -x "$program" ] ;;
    *) false ;;
    esac || { echo "$0: $program: not a program by a path that is absolute and has no blanks" >&2; exit 2; }
done
user=
system=
psim=
has qemu-ppc && user=yes
has psim && psim=yes
has qemu-system-ppc && system=yes
work=$(mktemp -d)
trap 'rm -rf "$work"' EXIT

# The option has two names, by the emulator's version.
[ -z "$user" ] || one_at_a_time=$(qemu-ppc -help | grep -o -m 1 -e '-one-insn-per-tb' -e '-singlestep' | head -n 1)
# Without unrolling the loop `four` is four instructions.
options='-O2 -ffreestanding -fno-unroll-loops -fno-pic -fno-pie -msoft-float -mno-sdata -G 0 -fno-stack-protector'
most=1000000000000

# Compiles C or assembler with these words.
compile() {
    # shellcheck disable=SC2086 # the options stand apart by blanks
    powerpc-linux-gnu-gcc $options "$@"
}

# Links what calls a loop a number of times: a static program, or a bare image.
image() {
    compile -nostdlib -static -no-pie -Wl,-Ttext-segment=0x100000 -DLOOP="$1" -DROUNDS="$2" "$here/loops/$3.S" "$work/loops.o" \
        -o "$work/$1/$4"
}

# Makes what plays a loop a number of times: programs and an image for the emulators, with ten times as many rounds for the fast ones,
# a session with a task, and one in which the shell calls it between two looks at the ticks, which come every 1,000 steps.
prepare() {
    mkdir -p "$work/$1/task" "$work/$1/count"
    image "$1" "$2" start program
    image "$1" "$(($2 * 10))" start long
    image "$1" "$(($2 * 10))" bare bare
    cp "$work/loops.o" "$work/$1/task"
    cp "$work/loops.o" "$work/$1/count"
    printf 'ld < loops.o\nsp %s, %s\n' "$1" "$2" >"$work/$1/task/console.txt"
    : >"$work/$1/task/ticks.txt"
    printf 'ld < loops.o\ntickGet; %s(%s); tickGet\n' "$1" "$2" >"$work/$1/count/console.txt"
    echo 'every 1000 400000' >"$work/$1/count/ticks.txt"
}

# Writes how many instructions the loop takes, to a thousand: the values are the module's id, the ticks before, the answer and the
# ticks after.
count() {
    (cd "$work/$1/count" && "$program" --limit "$most") |
        awk '/^value = / { values[++n] = $3 } END { if (n != 4) exit 1; print 1000 * (values[4] - values[2]) }'
}

# Writes the processor seconds of a command, of user and system, if it ends with status 0.
seconds_of() {
    sh -c '"$@" >/dev/null 2>&1 && times' - "$@" | awk '
        NR == 2 { for (i = 1; i <= 2; i++) { split($i, part, "[ms]"); all += 60 * part[1] + part[2] } print all }'
}

# Notes a run of a loop by a player: their names, how many times as many rounds it plays, and the seconds of the command.
note() {
    loop=$1
    player=$2
    times=$3
    shift 3
    seconds=$(seconds_of "$@")
    [ -n "$seconds" ] || { echo "$0: $loop: $player failed" >&2; exit 1; }
    printf '%s\t%s\t%s\t%s\t%s\n' "$loop" "$instructions" "$player" "$seconds" "$times" >>"$work/runs"
}

# Runs a bare image, in one of the ways of counted instructions: record or replay.
bare() {
    note "$1" "qemu-system-ppc, $2" 10 qemu-system-ppc -M ref405ep -display none -serial none -monitor none -net none -no-reboot \
        -icount "shift=0,rr=$2,rrfile=$work/$1/recorded" -kernel "$work/$1/bare"
}

# Notes a run of a loop by each emulator that is installed.
peers() {
    if [ -n "$user" ]; then
        note "$1" "qemu-ppc $one_at_a_time" 1 qemu-ppc "$one_at_a_time" "$work/$1/program"
        note "$1" qemu-ppc 10 qemu-ppc "$work/$1/long"
    fi
    [ -z "$psim" ] || note "$1" psim 1 psim -e linux "$work/$1/program"
    if [ -n "$system" ]; then
        bare "$1" record
        bare "$1" replay
    fi
}

# Plays a loop, five times by each player in turn.
play() {
    prepare "$1" "$2"
    program=$first
    instructions=$(count "$1")
    for _ in 1 2 3 4 5; do
        for program in $programs; do
            cd "$work/$1/task"
            note "$1" "$program" 1 "$program" --limit "$most"
        done
        peers "$1"
    done
}

first=$1
programs=$*
compile -c "$here/loops/loops.c" -o "$work/loops.o"
play nothing 1
play four 25000000
play copy 32500
play crc 6900
play calls 2700
play branches 21000

# A row for each loop and player, then the geometric means.
awk -F '\t' -v first="$first" '
    { run = $1 FS $3; if (!(run in best) || $4 < best[run]) best[run] = $4; size[run] = $2 * $5 }
    $1 != "nothing" && !($1 in met) { met[$1]; loops[++n] = $1 }
    !($3 in seen) { seen[$3]; players[++m] = $3 }
    function rate(loop, player) { return size[loop FS player] / 1e6 / (best[loop FS player] - best["nothing" FS player] + 1e-9) }
    END {
        for (i = 1; i <= n; i++)
            for (j = 1; j <= m; j++) {
                times = rate(loops[i], first) / rate(loops[i], players[j])
                shares[j] += log(times) / n
                means[j] += log(rate(loops[i], players[j])) / n
                printf "%-36s %12.0f million instructions a second", "loop " loops[i] ", " players[j], rate(loops[i], players[j])
                print (j == 1 ? "" : sprintf(" (the first makes %.2f times as many)", times))
            }
        for (j = 1; j <= m; j++) {
            printf "%-36s %12.0f million instructions a second, geometric mean", "loops, " players[j], exp(means[j])
            print (j == 1 ? "" : sprintf(" (the first makes %.2f times as many)", exp(shares[j])))
        }
    }' "$work/runs"
