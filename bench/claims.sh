#!/usr/bin/env bash
# bench/claims.sh: insertion alone by 4 workers who draw their blocks beside the same with blocks dealt out, in turns in one process: on a trace of 64 slots whose
# blocks 0, 4, 8, .. change all slots in each line and whose other blocks repeat one line, so that blocks dealt to 4 workers are one worker's work; with blocks of
# 64 lines and of 1024; and on trace M, where all blocks cost alike. Geometric means of ROUNDS turns (7). Needs ../shared/yardstick for M.
source "$(dirname "${BASH_SOURCE[0]}")/setup.sh"
rounds=${ROUNDS:-7}

make -s -C "$yard" OUT="$out" tracegen
"$yard/traces.sh" "$out" M
build_measure

# uneven BLOCK LINES: the uneven trace in blocks of so many lines
uneven() {
  awk -v block="$1" -v lines="$2" 'BEGIN {
    x = 7
    same = "0"; for (j = 1; j < 64; j++) same = same ",0"
    for (i = 0; i < lines; i++) {
      if (int(i / block) % 4) { print same; continue }
      line = ""
      for (j = 0; j < 64; j++) { x = (x * 16807) % 2147483647; line = line (j ? "," : "") x % 268435456 }
      print line
    }
  }'
}

# turns NAME WORKERS BLOCK TRACE: both ways by turns
turns() {
  GLIBC_TUNABLES=glibc.malloc.hugetlb=1 "$measure" claims "$2" "$3" "$rounds" < "$4" 2>&1 |
    awk -v name="$1" -v block="$3" -v rounds="$rounds" '
      { t = $(NF - 1) / 1000; sum[$(NF - 2)] += log(t); n[$(NF - 2)]++ }
      END { drawn = exp(sum["drawn:"] / rounds); dealt = exp(sum["dealt:"] / rounds)
        printf "| %s | %d | %.1f | %.1f | %.2f |\n", name, block, dealt, drawn, drawn / dealt }'
}

echo "$(date -u '+%Y-%m-%d %H:%M') UTC, $(nproc) cores, load $(cut -d' ' -f1-3 /proc/loadavg), 4 workers, $rounds turns; milliseconds"
echo "| trace | block | dealt | drawn | ratio |"
echo "|---|---|---|---|---|"
for block in 64 1024; do
  uneven $block 262144 > "$out/uneven"
  turns "uneven" 4 $block "$out/uneven"
done
turns "M" 4 64 "$out/t/M"
