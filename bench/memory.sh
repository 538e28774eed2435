#!/usr/bin/env bash
# bench/memory.sh: want of memory. Each job runs on a small trace with its first allocation failing, its second, and so on, once alone and once with all after it,
# up to the number at which the run succeeds: each run ends with status 8, its note and nothing written, or with the report of a run in which nothing fails. Says how
# many allocations each job makes. It is no part of the gate.
source "$(dirname "${BASH_SOURCE[0]}")/setup.sh"
cc -O1 -shared -fPIC -o "$out/fail_alloc.so" bench/fail_alloc.c -ldl
./treedb bench --lines 1 > /dev/null
program=$PWD/crates/treedb/out/treedb
unset GLIBC_TUNABLES

seq 1 40 | awk '{ print $1 % 7 "," $1 % 3 "," $1 % 5 "," 1 }' > "$out/memory.trace"
"$program" insert < "$out/memory.trace" > "$out/memory.report"
{ cat "$out/memory.trace"; echo '#'; cat "$out/memory.report"; } > "$out/memory.check"

# failing SETTINGS.. -- WORDS..: one run with these settings
failing() {
  local settings=()
  while [ "$1" != -- ]; do settings+=("$1"); shift; done
  shift
  env LD_PRELOAD="$out/fail_alloc.so" "${settings[@]}" "$program" "$@" < "$input" > "$out/memory.got" 2> "$out/memory.notes"
}

# without identifiers, freshness and workers' numbers, where more than one worker may change them
plain_answers() {
  if [ "$workers" -gt 1 ]; then awk -F, 'NF > 2 { print $1; next } { print }' "$1"; else cat "$1"; fi
}

faults=0
# job INPUT WORKERS WORDS..
job() {
  input=$1 workers=$2
  shift 2
  "$program" "$@" --workers "$workers" < "$input" > "$out/memory.wanted"
  failing FAIL_ALLOC_COUNT=1 -- "$@" --workers "$workers"
  local count refused=0 done=0
  count=$(sed -n 's/^allocations //p' "$out/memory.notes")
  for ((n = 1; n <= count + 1; n++)); do
    for after in "" FAIL_ALLOC_ON=1; do
      local was=0
      failing FAIL_ALLOC=$n $after -- "$@" --workers "$workers" || was=$?
      if [ $was -eq 8 ] && [ ! -s "$out/memory.got" ] && [ "$(cat "$out/memory.notes")" = "treedb: no memory" ]; then
        refused=$((refused + 1))
      elif [ $was -eq 0 ] && cmp -s <(plain_answers "$out/memory.got") <(plain_answers "$out/memory.wanted") && [ ! -s "$out/memory.notes" ]; then
        done=$((done + 1))
      else
        echo "FAULT: allocation $n of $* --workers $workers $after: status $was, $(wc -c < "$out/memory.got") bytes written, $(head -n 1 "$out/memory.notes")"
        faults=$((faults + 1))
      fi
    done
  done
  echo "| \`$*\` | $workers | $count | $refused | $done |"
}

echo "| words | workers | allocations | runs that end with status 8 and nothing written | runs with the right report |"
echo "|---|---|---|---|---|"
for mode in plain compact; do
  for workers in 1 4; do
    job "$out/memory.trace" $workers insert --mode $mode --block 4
    job "$out/memory.trace" $workers insert --mode $mode --block 4 --stats
    job "$out/memory.trace" $workers insert --mode $mode --block 4 --claims
    job "$out/memory.trace" $workers distinct --mode $mode
    job "$out/memory.trace" $workers mark --mode $mode --block 4
    job /dev/null $workers bench --mode $mode --lines 40 --slots 4
  done
done
job "$out/memory.check" 1 check
[ $faults -eq 0 ]
