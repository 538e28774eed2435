#!/usr/bin/env bash
# bench/marks.sh: instructions of `mark` beside `insert` by callgrind, by one worker, in both modes, on the first 50,000 lines of the traces M and R: a whole run
# a line, and what the workers' threads do a line. Needs ../shared/yardstick and valgrind.
source "$(dirname "${BASH_SOURCE[0]}")/setup.sh"
lines=50000

make -s -C "$yard" OUT="$out" "$out/tracegen"
"$yard/traces.sh" "$out" M R
./treedb bench --lines 1 > /dev/null
program=$PWD/crates/treedb/out/treedb

# count WORDS..: instructions a line of the whole run, and within the workers' threads
count() {
  valgrind --tool=callgrind --callgrind-out-file="$out/cg" "$program" "$@" < "$out/head" > /dev/null 2>&1
  callgrind_annotate --inclusive=yes --threshold=100 "$out/cg" | awk -v lines="$lines" '
    { n = $1; gsub(",", "", n) }
    /PROGRAM TOTALS/ { all = n }
    /thread::fork/ && n + 0 > most { most = n + 0 }
    END { printf "%d %d\n", all / lines, most / lines }'
}

echo "| trace, mode | \`insert\`, all | \`mark\`, all | ratio | \`insert\`, the worker | \`mark\`, the worker | ratio |"
echo "|---|---|---|---|---|---|---|"
for trace in M R; do
  head -n $lines "$out/t/$trace" > "$out/head"
  for mode in plain compact; do
    echo "$trace, $mode $(count insert --mode $mode) $(count mark --mode $mode)" |
      awk '{ printf "| %s %s | %d | %d | %.3f | %d | %d | %.3f |\n", $1, $2, $3, $5, $5 / $3, $4, $6, $6 / $4 }'
  done
done
