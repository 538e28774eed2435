#!/usr/bin/env bash
# bench/check.sh: the job `check` beside `insert` by one worker, on 1,000,000 lines of 16 one-digit slots with their report: wall times, peak memory and
# instructions, in one run. The report is that of 4 workers with blocks of 64; it is judged as theirs, as one of 64 workers line by line, whose it may be
# or not, and as theirs again with other names: the n-th identifier is n times 2^28, as those of compact mode are. The tries take turns, and each tells its best
# and its median; ROUNDS is how many turns there are, TREEDB a program that is built already. Needs ../shared/yardstick and g++, and valgrind for the instructions.
source "$(dirname "${BASH_SOURCE[0]}")/setup.sh"
rounds=${ROUNDS:-7}
lines=1000000
slots=16

make -s -C "$yard" OUT="$out" "$out/tracegen" "$out/bestof"
program=${TREEDB:-$PWD/crates/treedb/out/treedb}
[ -n "${TREEDB:-}" ] || ./treedb bench --lines 1 > /dev/null
trace=$out/digits-$lines
both=$out/digits-$lines-judged
spaced=$out/digits-$lines-spaced
[ -s "$trace" ] || "$out/tracegen" walk $lines $slots 10 1 > "$trace"
# renamed REPORT: the n-th identifier, in the order in which they first stand there, is n times 2^28
renamed() {
  awk -F, -v OFS=, '$2 != "" && NF == 3 { if (!($2 in name)) name[$2] = sprintf("%.0f", ++count * 268435456); $2 = name[$2] } { print }' "$1"
}
"$program" insert --workers 4 --block 64 < "$trace" > "$out/report"
{ cat "$trace"; echo '#'; cat "$out/report"; } > "$both"
{ cat "$trace"; echo '#'; renamed "$out/report"; } > "$spaced"

log=$(mktemp)
trap 'rm -f "$log"' EXIT
# try NAME INPUT WORDS..: one try: the name, seconds and peak memory in MiB
try() {
  echo "$1 $("$out/bestof" 1 20 "$2" "$program" "${@:3}" | cut -d' ' -f1,2)" >> "$log"
}
for ((i = 0; i < rounds; i++)); do
  try insert "$trace" insert --workers 1
  try check "$both" check --workers 4 --block 64
  try spaced "$spaced" check --workers 4 --block 64
  try others "$both" check --workers 64 --block 1
done 2> /dev/null

echo "$(date -u '+%Y-%m-%d %H:%M') UTC, $(nproc) cores, load $(cut -d' ' -f1 /proc/loadavg), $rounds rounds; $(stat -c %s "$trace") bytes of trace, $(stat -c %s "$out/report") of report"
echo "$("$program" check --workers 4 --block 64 < "$both") $("$program" check --workers 4 --block 64 < "$spaced")"
# the best and the median of the tries of a name, and the most memory
told() {
  grep "^$1 " "$log" | sort -k2 -n | awk '{ at[NR] = $2; if ($3 > most) most = $3 } END { print at[1], at[int((NR + 1) / 2)], most }'
}
insert=$(told insert)
row() {
  echo "$insert $(told "$1")" | awk -v name="$2" '{ printf "%-38s best %.3f s, ratio %.2f; median %.3f s, ratio %.2f; %4.0f MiB\n", name, $4, $4 / $1, $5, $5 / $2, $6 }'
}
row insert "insert by one worker"
row check "check, 4 workers of 64"
row spaced "check, 4 workers of 64, names n * 2^28"
row others "check, 64 workers of 1"
# the bytes of the input, 4 bytes a number, 16 bytes a reply
for name in check spaced; do
  input=$both
  [ $name = check ] || input=$spaced
  told $name | awk -v name=$name -v bytes="$(stat -c %s "$input")" -v lines=$lines -v slots=$slots '
    { printf "%s: beside the bytes, the numbers and the replies %.1f bytes a line\n", name, ($3 * 1048576 - bytes) / lines - 4 * slots - 16 }'
done

if command -v valgrind > /dev/null; then
  few=20000
  head -n $few "$trace" > "$out/few"
  "$program" insert --workers 4 --block 64 < "$out/few" > "$out/few-report"
  { cat "$out/few"; echo '#'; cat "$out/few-report"; } > "$out/few-judged"
  { cat "$out/few"; echo '#'; renamed "$out/few-report"; } > "$out/few-spaced"
  # counted INPUT WORDS..: instructions a line
  counted() {
    valgrind --tool=callgrind --callgrind-out-file=/dev/null "$program" "${@:2}" < "$1" 2>&1 > /dev/null | awk -v lines=$few '/Collected/ { printf "%.0f", $NF / lines }'
  }
  echo "instructions a line on $few lines: insert $(counted "$out/few" insert --nodes 20 --roots 16), check $(counted "$out/few-judged" check --workers 4 --block 64)," \
    "with names n * 2^28 $(counted "$out/few-spaced" check --workers 4 --block 64)"
fi
