#!/bin/sh
# Assembles a text to a module: `ppcasm`, proved if it is built and no source is newer, else built without its proof, once.
#
# usage: asm FILE           the module of a text goes to standard output
#        asm --list FILE    the instructions of a module
set -eu
top=$(cd "$(dirname "$0")" && pwd)
. "$top/tools/programs.sh"
choose asm ppcasm
exec "$program" "$@"
