#!/usr/bin/env bash
# bench/compact.sh: compact mode beside its unproved twin and beside plain mode. First one worker's reports with statistics, compared byte for byte with the
# twin's on all traces; then, in ROUNDS turns (5; 0 for none), `insert` on traces M, R and P by one worker and by four: geometric means of seconds, and what the
# named vectors and the tables take in both modes. Needs ../shared/yardstick with what its Makefile needs.
source "$(dirname "${BASH_SOURCE[0]}")/setup.sh"
rounds=${ROUNDS:-5}
traces=${TRACES:-S M R D W P Q}

make -s -C "$yard" OUT="$out" treeyard tracegen bestof
"$yard/traces.sh" "$out" $traces
./treedb bench --lines 1 > /dev/null
program=$PWD/crates/treedb/out/treedb

different=0
for trace in $traces; do
  if cmp -s <("$program" insert --mode compact --stats < "$out/t/$trace") <("$out/treeyard" insert --mode compact --stats < "$out/t/$trace" 2> /dev/null); then
    echo "compact report on $trace: the same"
  else
    echo "compact report on $trace: DIFFERENT"
    different=1
  fi
done
[ "$rounds" -gt 0 ] || exit $different

log=$out/compact.tries
: > "$log"
# try NAME TRACE WORKERS PROGRAM WORDS..: one try, as NAME TRACE WORKERS and seconds
try() {
  echo "$1 $2 $3 $("$out/bestof" 1 20 "$out/t/$2" "${@:4}" | cut -d' ' -f1)" >> "$log"
}
for ((i = 0; i < rounds; i++)); do
  for workers in 1 4; do
    for trace in M R P; do
      try plain $trace $workers "$program" insert --workers $workers
      try compact $trace $workers "$program" insert --mode compact --workers $workers
      try twin $trace $workers "$out/treeyard" insert --mode compact --no-huge --workers $workers
    done
  done
done 2> /dev/null

echo "$(date -u '+%Y-%m-%d %H:%M') UTC, $(nproc) cores, load $(cut -d' ' -f1-3 /proc/loadavg), geometric means of $rounds rounds; seconds"
awk '{ k = $1 " " $2 " " $3; sum[k] += log($4); n[k]++ }
  function mean(k) { return exp(sum[k] / n[k]) }
  END {
    print "| `insert` on | workers | compact | plain | ratio | twin, compact | ratio |"; print "|---|---|---|---|---|---|---|"
    split("M R P", ts, " ")
    for (i = 1; i <= 3; i++) for (w = 1; w <= 4; w += 3) {
      t = ts[i] " " w; c = mean("compact " t); p = mean("plain " t); y = mean("twin " t)
      printf "| %s | %d | %.3f | %.3f | %.2f | %.3f | %.2f |\n", ts[i], w, c, p, c / p, y, c / y
    }
  }' "$log"

# bytes a named vector, by the statistics of each mode
echo "| trace | mode | names | \`stored\` a vector | \`raw\` a vector |"
echo "|---|---|---|---|---|"
for trace in M R P; do
  for mode in plain compact; do
    "$program" insert --mode $mode --stats < "$out/t/$trace" | tail -n 4 |
      awk -v t=$trace -v m=$mode '{ v[$1] = $2 } END { printf "| %s | %s | %d | %.1f | %.1f |\n", t, m, v["distinct"], v["stored"] / v["distinct"], v["raw"] / v["distinct"] }'
  done
done
exit $different
