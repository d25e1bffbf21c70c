#!/bin/sh
# Tries the wrong bodies that the gate leaves out, those of the folders `wrong-bodies` of the crates, on a copy of the repository: the
# check must refuse each. Without names it tries those of all crates, which takes long.
#
# usage: tests/wrong-bodies.sh [CRATE..]
set -eu
top=$(cd "$(dirname "$0")/.." && pwd)
copy=$(mktemp -d)
trap 'rm -rf "$copy"' EXIT
git clone -q "$top" "$copy/repository"
cd "$copy/repository"
[ $# -gt 0 ] || set -- $(ls -d crates/*/wrong-bodies | cut -d/ -f2)
for crate in "$@"; do
    rm -rf "crates/$crate/must-fail"
    mv "crates/$crate/wrong-bodies" "crates/$crate/must-fail"
done
rt must-fail "$@"
