#!/bin/sh
# Plays some 4,600 steps on the kernel's queues and on a plain vector that is scanned, and compares who is first after each. It is
# run by hand, without a proof: `rt try` builds it in a copy of the repository.
set -e
top=$(cd "$(dirname "$0")/.." && pwd)
room=$(mktemp -d)
trap 'rm -rf "$room"' EXIT
mkdir "$room/crates"
cp "$top/HANDLES" "$room"
for crate in wind_base id_table gap_vec linked_lists ready_queue delay_queue wait_order; do
    mkdir "$room/crates/$crate"
    cp -r "$top/crates/$crate/src" "$room/crates/$crate"
    for part in specs proofs; do
        if [ -d "$top/crates/$crate/$part" ]; then
            cp -r "$top/crates/$crate/$part" "$room/crates/$crate"
        fi
    done
    grep "^$crate:" "$top/crates.txt" >>"$room/crates.txt"
done
echo 'queue_cases: wind_base id_table ready_queue delay_queue wait_order' >>"$room/crates.txt"
mkdir -p "$room/crates/queue_cases/src"
for file in "$top"/tests/queues/*.rt.txt; do
    cp "$file" "$room/crates/queue_cases/src/$(basename "$file" .txt)"
done
(cd "$room/crates/queue_cases" && rt try) >"$room/said" 2>"$room/errors" || {
    cat "$room/errors" >&2
    exit 1
}
grep -v '^proved=no' "$room/said" | diff "$top/tests/queues/stdout" - && echo 'queues: as the plain vector'
