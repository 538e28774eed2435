#!/usr/bin/env bash
# bench/signed.sh: instructions of `insert` over signed lines beside unsigned lines of twice as many numbers, by callgrind, by one worker, in both modes:
# 50,000 lines of a walk of 16 signed numbers from -5 to 4; the lines of their halves; and a walk of 32 numbers from 0 to 9. A whole run a line, and what the
# workers' threads do a line. Needs ../shared/yardstick and valgrind.
source "$(dirname "${BASH_SOURCE[0]}")/setup.sh"
lines=50000

make -s -C "$yard" OUT="$out" "$out/tracegen"
./treedb bench --lines 1 > /dev/null
program=$PWD/crates/treedb/out/treedb
"$out/tracegen" walk $lines 32 10 1 > "$out/unsigned"
"$out/tracegen" walk $lines 16 10 1 | awk -F, -v OFS=, '{ for (i = 1; i <= NF; i++) $i -= 5; print }' > "$out/signed"
awk -F, '{ for (i = 1; i <= NF; i++) printf "%s%d,%d", (i > 1 ? "," : ""), ($i < 0 ? 65535 : 0), ($i < 0 ? 65536 + $i : $i); print "" }' "$out/signed" > "$out/halves"

# count TRACE WORDS..: instructions a line of the whole run, and within the workers' threads
count() {
  local trace=$1
  shift
  valgrind --tool=callgrind --callgrind-out-file="$out/cg" "$program" insert --nodes 21 --roots 17 "$@" < "$out/$trace" > /dev/null 2>&1
  callgrind_annotate --inclusive=yes --threshold=100 "$out/cg" | awk -v lines="$lines" '
    { n = $1; gsub(",", "", n) }
    /PROGRAM TOTALS/ { all = n }
    /thread::fork/ && n + 0 > most { most = n + 0 }
    END { printf "%d %d\n", all / lines, most / lines }'
}

echo "| mode | signed, all | halves, all | ratio | 32 numbers, all | ratio | signed, the worker | halves, the worker | 32 numbers, the worker |"
echo "|---|---|---|---|---|---|---|---|---|"
for mode in plain compact; do
  echo "$mode $(count signed --signed --mode $mode) $(count halves --mode $mode) $(count unsigned --mode $mode)" |
    awk '{ printf "| %s | %d | %d | %.3f | %d | %.3f | %d | %d | %d |\n", $1, $2, $4, $2 / $4, $6, $2 / $6, $3, $5, $7 }'
done
