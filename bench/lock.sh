#!/usr/bin/env bash
# bench/lock.sh: the lock of one region on two processors: the roots that fill it are put again and again, in all equally often, by 2 workers and by 64, in turns;
# best of so many rounds. Then how many locks the insertion of trace R takes by four workers, beside the vectors that it names. Needs ../shared/yardstick.
source "$(dirname "${BASH_SOURCE[0]}")/setup.sh"
rounds=${ROUNDS:-5} puts=${PUTS:-20000}
build_measure

echo "$(nproc) cores, load $(cut -d' ' -f1 /proc/loadavg); milliseconds for $((64 * puts)) puts"
for ((i = 0; i < rounds; i++)); do
  for workers in 2 64; do
    echo "$workers $(taskset -c 0,1 "$measure" roots 2 6 100 "$puts" 0 "$workers" 6 2>&1)"
  done
done | awk '
  { if (!($1 in low) || $4 < low[$1]) low[$1] = $4 }
  END { printf "2 workers %.0f, 64 workers %.0f, ratio %.2f\n", low[2] / 1000, low[64] / 1000, low[64] / low[2] }'

make -s -C "$yard" OUT="$out" tracegen
"$yard/traces.sh" "$out" R
for ((i = 0; i < rounds; i++)); do
  "$measure" locks 4 20 8 < "$out/t/R" 2>&1
done | awk '
  { ratio = $6 / $4; if (ratio > most) most = ratio }
  END { printf "R by 4 workers, %d runs: at most %.4f locks a new vector\n", NR, most }'
