#!/usr/bin/env bash
# Has SPIN make a verifier of philosophers.pml, runs it with its own hash table and with its states in a store, and compares how many states each kept.
# usage: compare.sh ARCHIVE..   the library and what it takes memory by
set -eu
here=$(cd "$(dirname "${BASH_SOURCE[0]}")" && pwd)
work=$(mktemp -d)
trap 'rm -rf "$work"' EXIT
archives=()
for archive in "$@"; do archives+=("$(realpath "$archive")"); done
cd "$work"

spin -a "$here/philosophers.pml" > /dev/null
cc=${CC:-cc}
flags=(-O2 -w -DSAFETY -DNOREDUCE)
"$cc" "${flags[@]}" -o plainly pan.c
# its pointer to the function that keeps a state is set in one place
{ echo 'int keep_state(char *, int);'; sed 's/b_store = bstore_reg;/b_store = keep_state;/' pan.c; } > kept.c
[ "$(grep -c 'b_store = keep_state;' kept.c)" -eq 1 ] || { echo "another SPIN: its b_store is set elsewhere"; exit 1; }
"$cc" "${flags[@]}" -DBITSTATE -o kept kept.c "$here/keep.c" -I"$here/../../../include" "${archives[@]}"

# states RUN: how many different states it stored
states() { "./$1" -E -m1000000 -w24 | awk '/states, stored/ { print $1 }'; }
own=$(states plainly)
kept=$(states kept)
echo "$own states in SPIN's own table, $kept in the store"
[ "${own%.*}" = "${kept%.*}" ] && [ "${own%.*}" -ge 100000 ]
