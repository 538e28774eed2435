#!/usr/bin/env bash
# bench/pages.sh: `treedb insert` with pages of 2 MiB (GLIBC_TUNABLES, as the launcher sets it) and with pages of 4 KiB, beside the twin with both, on traces
# M, R and P (or TRACES) by one worker and by four. The programs take turns. RUNS (5) runs of ROUNDS (12) turns, the best of each run; what is written are the geometric
# means over the runs. PIECES=MIB takes so much memory before, and frees every other 64 KiB of it (fragment.cpp). Needs ../shared/yardstick.
source "$(dirname "${BASH_SOURCE[0]}")/setup.sh"
runs=${RUNS:-5}
rounds=${ROUNDS:-12}
traces=${TRACES:-M R P}

make -s -C "$yard" OUT="$out" treeyard tracegen bestof
"$yard/traces.sh" "$out" $traces > /dev/null
./treedb bench --lines 1 > /dev/null
program=$PWD/crates/treedb/out/treedb
log=$(mktemp)

if [ "${PIECES:-0}" -gt 0 ]; then
  g++ -O2 -o "$out/fragment" bench/fragment.cpp
  coproc pieces { exec "$out/fragment" "$PIECES"; }
  read -r -u "${pieces[0]}" _
fi

# try RUN NAME TRACE WORKERS PROGRAM WORDS..: one try, as RUN NAME TRACE WORKERS, seconds and peak memory in MB
try() {
  echo "$1 $2 $3 $4 $("$out/bestof" 1 20 "$out/t/$3" "${@:5}" --workers "$4" 2> /dev/null | cut -d' ' -f1,2)" >> "$log"
}
for ((run = 1; run <= runs; run++)); do
  for ((i = 0; i < rounds; i++)); do
    for workers in 1 4; do
      for trace in $traces; do
        try "$run" small "$trace" "$workers" "$program" insert
        GLIBC_TUNABLES=glibc.malloc.hugetlb=1 try "$run" large "$trace" "$workers" "$program" insert
        try "$run" twin "$trace" "$workers" "$out/treeyard" insert --no-huge
        try "$run" twin-large "$trace" "$workers" "$out/treeyard" insert
      done
    done
  done
done

echo "$(date -u '+%Y-%m-%d %H:%M') UTC, $(nproc) cores, load $(cut -d' ' -f1-3 /proc/loadavg), $runs runs of $rounds rounds, ${PIECES:-0} MiB in pieces"
awk -v traces="$traces" '{ k = $1 " " $2 " " $3 " " $4; if (!(k in low) || $5 < low[k]) low[k] = $5; if ($1 > runs) runs = $1; if ($6 > most[$2 $3 $4]) most[$2 $3 $4] = $6 }
  function mean(a, t, w,  r, s) { for (r = 1; r <= runs; r++) s += log(low[r " " a " " t " " w]); return exp(s / runs) }
  END {
    print "| `insert` on | workers | 4 KiB | 2 MiB | 2 MiB / 4 KiB | twin, 4 KiB | twin, 2 MiB | 4 KiB / twin | 2 MiB / twin of 4 KiB | 2 MiB / twin of 2 MiB | memory 4 KiB | 2 MiB |"
    print "|---|---|---|---|---|---|---|---|---|---|---|---|"
    n = split(traces, ts, " ")
    for (i = 1; i <= n; i++) for (w = 1; w <= 4; w += 3) {
      s = mean("small", ts[i], w); l = mean("large", ts[i], w); t = mean("twin", ts[i], w); h = mean("twin-large", ts[i], w)
      printf "| %s | %d | %.3f | %.3f | %.2f | %.3f | %.3f | %.2f | %.2f | %.2f | %.0f | %.0f |\n", ts[i], w, s, l, l / s, t, h, s / t, l / t, l / h, most["small" ts[i] w], most["large" ts[i] w]
    }
  }' "$log"
cp "$log" "$out/pages.${PIECES:-0}.tries"
rm -f "$log"
