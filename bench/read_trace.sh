#!/usr/bin/env bash
# bench/read_trace.sh: `read_trace` on 64 MB of small numbers beside the yardstick's loops and Rust's csv crate, in one run, as ratios.
# The tries of all programs take turns, and each keeps its best, since a single time on a busy machine says little. Needs ../shared/yardstick, g++ and,
# for Rust's csv crate, cargo with Debian's librust-csv-dev and librust-dashmap-dev.
source "$(dirname "${BASH_SOURCE[0]}")/setup.sh"
rounds=${ROUNDS:-3}

make -s -C "$yard" OUT="$out" "$out/tracegen" "$out/limits"
make -s -C "$yard" OUT="$out" "$out/rustcsv" 2> /dev/null || echo "without Rust's csv crate: it was not built" >&2
build_measure
trace=$out/walk-64MB
[ -s "$trace" ] || "$out/tracegen" walk 4000000 8 10 1 > "$trace"

log=$(mktemp)
trap 'rm -f "$log"' EXIT
for ((i = 0; i < rounds; i++)); do
  "$measure" read-trace 2 < "$trace" 2>&1 | awk '{ print "read_trace", $(NF - 1) / 1000 }'
  "$out/limits" --quick "$trace" | awk '/^parse-/ { print $1, $(NF - 1) }'
  [ ! -x "$out/rustcsv" ] || "$out/rustcsv" < "$trace" | awk '{ print $1, $5 }'
done >> "$log"
echo "$(stat -c %s "$trace") bytes, $(wc -l < "$trace") lines of 8 slots, $(nproc) cores, load $(cut -d' ' -f1 /proc/loadavg), best of $rounds rounds"
awk '{ if (!($1 in low) || $2 < low[$1]) low[$1] = $2; if (!($1 in seen)) { seen[$1]; order[++n] = $1 } }
  END { for (i = 1; i <= n; i++) printf "%-20s %.3f s   read_trace / this: %.2f\n", order[i], low[order[i]], low["read_trace"] / low[order[i]] }' "$log"
