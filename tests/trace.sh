#!/bin/sh
# Plays each session of `examples` with WINDTRACE and with WINDPLAY, and compares:
# - the texts that the events say were written have to be the bytes of the console, and the two statuses the same;
# - the events have to be those of the session's file `events`, if there is one; the coverage, those of `coverage`;
# - each object of `--as json-lines` has to say what its line of the events says;
# - the objects of `--as chrome` have to follow the rules of their format, with the timeline's spans;
# - the state has to be JSON, and the timeline XML;
# - the figures of the summary have to be those that its events add up to; those of three sessions were worked out by hand.
# Then it plays a few consoles, and looks in the trace of each for the line that it has to have.
# It prints a line for each session that differs and each line that is missing, and one that counts them. It ends with
# 1 if there is one.
#
# usage: tests/trace.sh WINDTRACE WINDPLAY
if [ $# -ne 2 ]; then
    echo "usage: $0 WINDTRACE WINDPLAY" >&2
    exit 2
fi
here=$(cd "$(dirname "$0")" && pwd) || exit 2
exec python3 "$here/trace.py" "$here/../examples" "$1" "$2"
