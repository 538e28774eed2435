#!/usr/bin/env bash
# bench/program.sh: the whole program in plain mode beside its unproved twin, with 4 KiB pages, in one run: wall times and peak memory on traces M, R and P,
# insertion in `bench`, reports compared byte for byte on all traces, and instructions by phase. The programs take turns, and each keeps its best.
# ROUNDS is how many turns there are; with --more the tries of earlier runs count too, since a machine can be slow for minutes. Needs ../shared/yardstick with
# what its Makefile needs, and valgrind.
source "$(dirname "${BASH_SOURCE[0]}")/setup.sh"
rounds=${ROUNDS:-7}
traces="S M R D W P Q"

make -s -C "$yard" OUT="$out" treeyard tracegen bestof rustcsv
"$yard/traces.sh" "$out" $traces
./treedb bench --lines 1 > /dev/null
program=$PWD/crates/treedb/out/treedb

log=$out/program.tries
[ "${1:-}" = --more ] || : > "$log"
# try NAME WHAT WORKERS INPUT PROGRAM WORDS..: one try, as NAME WHAT WORKERS, seconds and peak memory in MB
try() {
  echo "$1 $2 $3 $("$out/bestof" 1 20 "$4" "${@:5}" | cut -d' ' -f1,2)" >> "$log"
}
drawn="--lines 1000000 --slots 16 --seed 1"
for ((i = 0; i < rounds; i++)); do
  for workers in 1 4; do
    for trace in M R P; do
      try treedb $trace $workers "$out/t/$trace" "$program" insert --workers $workers
      try twin $trace $workers "$out/t/$trace" "$out/treeyard" insert --no-huge --workers $workers
    done
    for values in 128 1; do
      try treedb bench-$values $workers /dev/null "$program" bench $drawn --values $values --workers $workers
      try twin bench-$values $workers /dev/null "$out/treeyard" bench --no-huge $drawn --values $values --workers $workers
    done
  done
done 2> /dev/null

echo "$(date -u '+%Y-%m-%d %H:%M') UTC, $(nproc) cores, load $(cut -d' ' -f1-3 /proc/loadavg), best of $(grep -c "^treedb P 4 " "$log") rounds; seconds, and peak memory in MB"
awk '{ k = $1 " " $2 " " $3; if (!(k in low) || $4 < low[k]) low[k] = $4; if ($5 > most[k]) most[k] = $5 }
  function row(t, w) { printf "| %s | %d | %.3f | %.3f | %.2f | %.0f | %.0f |\n", t, w, low["treedb " t " " w], low["twin " t " " w], low["treedb " t " " w] / low["twin " t " " w], most["treedb " t " " w], most["twin " t " " w] }
  function inserted(p, w) { return low[p " bench-128 " w] - low[p " bench-1 " w] }
  END {
    print "| `insert` on | workers | treedb | twin | ratio | memory | memory of the twin |"; print "|---|---|---|---|---|---|---|"
    n = split("M R P", ts, " "); for (i = 1; i <= n; i++) { row(ts[i], 1); row(ts[i], 4) }
    for (w = 1; w <= 4; w += 3) printf "insertion in `bench` (128 values less 1 value), %d workers: %.3f beside %.3f, ratio %.2f\n", w, inserted("treedb", w), inserted("twin", w), inserted("treedb", w) / inserted("twin", w)
    mine = inserted("treedb", 1) / inserted("treedb", 4); its = inserted("twin", 1) / inserted("twin", 4)
    printf "speed-up of insertion from 1 to 4 workers: %.2f beside %.2f, ratio %.2f\n", mine, its, mine / its
  }' "$log"

for trace in $traces; do
  if cmp -s <("$program" insert --stats < "$out/t/$trace") <("$out/treeyard" insert --stats < "$out/t/$trace" 2> /dev/null); then
    echo "report on $trace: the same"
  else
    echo "report on $trace: DIFFERENT"
  fi
done

# phases NAME TRACE REGEX..: instructions a line in the functions that these expressions find, each with all that it calls
count() { valgrind --tool=callgrind --callgrind-out-file="$out/cg" "$@" > /dev/null 2>&1; }
within() { callgrind_annotate --inclusive=yes --threshold=100 "$out/cg" | awk -v what="$1" '$0 ~ what { gsub(",", "", $1); if ($1 > most) most = $1 } END { print most + 0 }'; }
phase() { printf ' %d |' $(($(within "$1") / $2)); }
lines=50000
echo "| instructions a line | reading | insertion | printing |"
echo "|---|---|---|---|"
for trace in M R; do
  head -$lines "$out/t/$trace" > "$out/head"
  count "$program" insert < "$out/head"
  reading=$(($(within 'input::bytes_of') + $(within 'input::lines_of')))
  printing=$(within 'output::write_answered')
  echo "| treedb, $trace | $((reading / lines)) |$(phase 'thread::fork' $lines) $((printing / lines)) |"
  count "$out/treeyard" insert < "$out/head"
  echo "| twin, $trace |$(phase ':parse[(]' $lines)$(phase 'lambda[(]unsigned long[)]#2' $lines)$(phase 'write_replies' $lines)"
  # it reads the trace five times
  count "$out/rustcsv" < "$out/head"
  echo "| Rust's csv crate, $trace |$(phase 'PROGRAM TOTALS' $((5 * lines))) | |"
done
