#!/usr/bin/env bash
# The project's own checks: the program as `./treedb` runs it, on whole inputs, by its exit status and what it writes. Each line begins with ok or FAIL;
# the last one counts them.
set -u
cd "$(dirname "${BASH_SOURCE[0]}")/.." || exit 1
passed=0
failed=0
work=$(mktemp -d)
trap 'rm -rf "$work"' EXIT

# tell NAME RIGHT DETAIL: counts a check that was right (yes) or not
tell() {
  if [ "$2" = yes ]; then
    echo "ok   $1"
    passed=$((passed + 1))
  else
    echo "FAIL $1: $3"
    failed=$((failed + 1))
  fi
}

# check NAME STATUS NOTE WORDS..: the program on standard input; its output is to be that of $work/wanted, its note the line NOTE
check() {
  local name=$1 status=$2 note=$3
  shift 3
  ./treedb "$@" > "$work/got" 2> "$work/notes"
  local was=$?
  if [ "$was" -ne "$status" ]; then
    tell "$name" no "status $was, wanted $status"
  elif ! cmp -s "$work/got" "$work/wanted"; then
    tell "$name" no "another output: $(diff "$work/got" "$work/wanted" | head -n 5)"
  elif [ "$(head -n 1 "$work/notes")" != "$note" ]; then
    tell "$name" no "another note: $(head -n 5 "$work/notes")"
  else
    tell "$name" yes
  fi
}

# wants TEXT: the output that the next checks want
wants() {
  printf "$1" > "$work/wanted"
}

# wants_pairs TRACE: the report of compact mode for pairs, by awk's own set of lines
wants_pairs() {
  awk -F, '{ id = $1 * 268435456 + $2; print NR "," id "," (id in seen ? "seen" : "new"); if (!(id in seen)) { seen[id]; n++ } }
    END { print "lines " NR; print "distinct " n }' OFMT=%.0f CONVFMT=%.0f "$1" > "$work/wanted"
}

# check_names NAME TRACE WORDS..: a report of any number of workers for a trace that fits, looked at from the outside: a line for each line, one identifier
# for each vector and one vector for each identifier, each vector new once, and the counts
check_names() {
  local name=$1 trace=$2
  shift 2
  ./treedb "$@" < "$trace" > "$work/got" 2> "$work/notes"
  tell_names "$name" "$trace" $? ''
}

# tell_names NAME TRACE STATUS FAULTS: the same of a report that was written with this status, and in which these faults were found
tell_names() {
  local name=$1 trace=$2 was=$3 faults=$4
  faults+=$(awk -F, -v trace="$trace" '
    function fault(what) { print "line " FNR ": " what }
    FILENAME == trace { line[FNR] = $0; lines = FNR; if (!($0 in met)) { met[$0]; vectors++ } next }
    FNR <= lines {
      v = line[FNR]
      if ($1 != FNR) fault("its number")
      if (v in id && id[v] != $2) fault("two identifiers")
      if ($2 in vector && vector[$2] != v) fault("two vectors")
      id[v] = $2; vector[$2] = v
      if ($3 == "new") { if (fresh[v]++) fault("new again") } else if ($3 == "seen") repeats++; else fault("its answer")
      next
    }
    FNR == lines + 1 { if ($0 != "lines " lines) fault($0); next }
    FNR == lines + 2 { if ($0 != "distinct " vectors) fault($0); next }
    { fault("one too many") }
    END { if (lines != vectors + repeats) print "the answers"; if (FNR != lines + 2) print "the summary" }' "$trace" "$work/got" | head -n 3)
  if [ "$was" -eq 0 ] && [ -z "$faults" ] && [ ! -s "$work/notes" ]; then
    tell "$name" yes
  else
    tell "$name" no "status $was; $faults"
  fi
}

# check_drawn NAME TRACE WORKERS BLOCK WORDS..: a report of lines that so many workers drew in such blocks: each line ends in a worker's number, one for all
# lines of a block, and without these it is a report as any
check_drawn() {
  local name=$1 trace=$2 workers=$3 block=$4
  shift 4
  ./treedb "$@" --workers "$workers" --block "$block" --claims < "$trace" > "$work/drawn" 2> "$work/notes"
  local was=$?
  local faults
  faults=$(awk -F, -v workers="$workers" -v block="$block" '
    NF == 4 {
      at = int((NR - 1) / block)
      if ($4 !~ /^[0-9]+$/ || $4 + 0 >= workers + 0 || (at in of && of[at] != $4)) print "line " NR ": its worker"
      of[at] = $4
      next
    }
    !/^(lines|distinct) [0-9]+$/ { print "line " NR ": its fields" }' "$work/drawn" | head -n 3)
  sed 's/^\([^,]*,[^,]*,[^,]*\),[^,]*$/\1/' "$work/drawn" > "$work/got"
  tell_names "$name" "$trace" "$was" "$faults"
}

# check_marks NAME TRACE WORKERS BLOCK WORDS..: a report of lines that so many workers marked: each line ends in first or again, of the lines of each vector one
# is first, the count of these is that of the vectors, and without all this it is a report as any
check_marks() {
  local name=$1 trace=$2 workers=$3 block=$4
  shift 4
  ./treedb mark "$@" --workers "$workers" --block "$block" < "$trace" > "$work/marked" 2> "$work/notes"
  local was=$?
  local faults
  faults=$(awk -F, -v trace="$trace" '
    FILENAME == trace { line[FNR] = $0; if (!($0 in met)) { met[$0]; vectors++ } next }
    NF == 4 {
      if ($4 == "first") { if (first[line[FNR]]++) print "line " FNR ": first again" } else if ($4 != "again") print "line " FNR ": its mark"
      next
    }
    /^marked / { if ($0 != "marked " vectors || before != "distinct " vectors) print $0; counted++ }
    { before = $0 }
    !/^(lines|distinct|marked) [0-9]+$/ { print "line " FNR ": its fields" }
    END { for (v in met) if (!(v in first)) { print "never first: " v; exit } if (counted != 1) print "no count" }' "$trace" "$work/marked" | head -n 3)
  sed '/^marked /d; s/^\([^,]*,[^,]*,[^,]*\),[^,]*$/\1/' "$work/marked" > "$work/got"
  tell_names "$name" "$trace" "$was" "$faults"
}

./treedb insert < examples/pairs.csv > /dev/null 2>&1 # builds on first use
awk 'BEGIN { x = 7; for (i = 0; i < 200000; i++) { x = (x * 16807) % 2147483647; print x % 997 "," int(x / 1000) % 499 } }' > "$work/pairs.csv"
awk 'BEGIN { x = 7; for (i = 0; i < 100000; i++) { x = (x * 16807) % 2147483647; v[x % 9] = int(x / 1000) % 3
  line = v[0] + 0; for (j = 1; j < 9; j++) line = line "," v[j] + 0; print line } }' > "$work/walk.csv"

wants '1,4,new\n2,7,new\n3,4,seen\nlines 3\ndistinct 2\n'
check "three pairs" 0 "" insert < examples/pairs.csv
wants '1,0,new\n2,3,new\n3,6,new\n4,7,new\n5,2,new\n6,1,new\n7,4,new\n8,5,new\n9,,full-roots\nlines 9\ndistinct 8\n'
check "a root table that fills up" 5 "treedb: 1 lines full" insert --roots 3 < <(printf '0,0\n0,1\n0,2\n0,3\n0,4\n0,5\n0,6\n0,7\n0,8\n')
wants '1,0,new\nlines 1\ndistinct 1\nnodes 1\nstored 16\nraw 20\n'
check "statistics of one vector" 0 "" insert --stats < <(printf '0,0,0,0,0\n')
check_names "Peterson's protocol" examples/peterson.csv insert
check_names "200,000 drawn pairs" "$work/pairs.csv" insert
check_names "200,000 drawn pairs by 8 workers" "$work/pairs.csv" insert --workers 8
check_names "a walk of 100,000 lines" "$work/walk.csv" insert
check_names "a walk of 100,000 lines by 64 workers, line by line" "$work/walk.csv" insert --workers 64 --block 1
check_names "a walk of 100,000 lines of big numbers' width" "$work/walk.csv" insert --profile 31 --workers 3
check_drawn "a walk of 100,000 lines, drawn by one worker" "$work/walk.csv" 1 64 insert
check_drawn "a walk of 100,000 lines, drawn by 8 workers" "$work/walk.csv" 8 64 insert
check_drawn "a walk of 100,000 lines, drawn line by line by 64 workers" "$work/walk.csv" 64 1 insert
check_drawn "the same in compact mode" "$work/walk.csv" 64 1 insert --mode compact

wants '1,805306373,new,first\n2,1342177283,new,first\n3,805306373,seen,again\nlines 3\ndistinct 2\nmarked 2\n'
check "three pairs that are marked" 0 "" mark --mode compact --flag 6 < examples/pairs.csv
wants '1,0,new,first\n2,3,new,first\n3,6,new,first\n4,7,new,first\n5,2,new,first\n6,1,new,first\n7,4,new,first\n8,5,new,first\n9,,full-roots\nlines 9\ndistinct 8\nmarked 8\n'
check "a full line that is not marked" 5 "treedb: 1 lines full" mark --roots 3 < <(printf '0,0\n0,1\n0,2\n0,3\n0,4\n0,5\n0,6\n0,7\n0,8\n')
for mode in plain compact; do
  check_marks "Peterson's protocol, marked by one worker in $mode mode" examples/peterson.csv 1 64 --mode $mode
  check_marks "200,000 drawn pairs, marked by 8 workers in $mode mode" "$work/pairs.csv" 8 64 --mode $mode
  for workers in 2 7 64; do
    check_marks "a walk of 100,000 lines, marked line by line by $workers workers in $mode mode" "$work/walk.csv" $workers 1 --mode $mode
  done
done

awk 'BEGIN { x = 11; for (i = 0; i < 1000000; i++) { x = (x * 16807) % 2147483647; print x % 2003 "," int(x / 1000) % 499 } }' > "$work/million.csv"
check_names "a million lines" "$work/million.csv" insert --workers 2
check_names "a million lines in compact mode" "$work/million.csv" insert --mode compact --workers 2
check_drawn "a million lines that two workers draw" "$work/million.csv" 2 64 insert
check_marks "a million lines that are marked" "$work/million.csv" 2 64 --mode plain
rm "$work/million.csv"

# Tables that have just room for a trace: 64 roots fill a region of 64 cells
for ((i = 0; i < 64; i++)); do echo "0,$i"; done > "$work/64.csv"
check_names "64 lines that fill a region of 64 cells, by 4 workers" "$work/64.csv" insert --mode compact --roots 6 --workers 4 --block 1
check_names "the same in plain mode by 8 workers" "$work/64.csv" insert --profile 28 --workers 8
bash checks/room.sh > "$work/got" 2>&1
was=$?
tell "$(tail -n 1 "$work/got")" "$([ $was -eq 0 ] && echo yes)" "$(head -n 3 "$work/got")"

# The library for C
bash checks/c.sh > "$work/got" 2>&1
was=$?
tell "$(tail -n 1 "$work/got")" "$([ $was -eq 0 ] && echo yes)" "$(head -n 5 "$work/got")"

# The command itself, and what installs it
bash checks/command.sh > "$work/got" 2>&1
was=$?
tell "$(tail -n 1 "$work/got")" "$([ $was -eq 0 ] && echo yes)" "$(head -n 3 "$work/got")"

wants 'lines 100000\ndistinct 74191\n'
check "drawn lines" 0 "" bench --lines 100000 --slots 32 --values 4 --seed 1 < /dev/null
check "drawn lines by 8 workers" 0 "" bench --lines 100000 --slots 32 --values 4 --seed 1 --workers 8 < /dev/null
check "drawn lines in blocks that 8 workers draw" 0 "" bench --lines 100000 --slots 32 --values 4 --seed 1 --workers 8 --claims < /dev/null
check "the same in compact mode" 0 "" bench --mode compact --lines 100000 --slots 32 --values 4 --seed 1 --workers 8 --claims < /dev/null
check "drawn lines in compact mode" 0 "" bench --mode compact --lines 100000 --slots 32 --values 4 --seed 1 < /dev/null
check "drawn lines in compact mode by 8 workers" 0 "" bench --mode compact --lines 100000 --slots 32 --values 4 --seed 1 --workers 8 < /dev/null

LC_ALL=C sort -t, -k1,1n -k2,2n -u "$work/pairs.csv" > "$work/wanted"
check "the different pairs of 200,000, beside sort" 0 "" distinct < "$work/pairs.csv"
check "the same by 8 workers" 0 "" distinct --workers 8 < "$work/pairs.csv"
check "the same by 8 workers in compact mode" 0 "" distinct --mode compact --workers 8 < "$work/pairs.csv"
wants '3,5\n5,3\n'
check "two different pairs" 0 "" distinct < examples/pairs.csv

wants '1,805306373,new\n2,1342177283,new\n3,805306373,seen\nlines 3\ndistinct 2\n'
check "three pairs in compact mode" 0 "" insert --mode compact < examples/pairs.csv
wants_pairs examples/peterson.csv
check "Peterson's protocol in compact mode, beside awk" 0 "" insert --mode compact < examples/peterson.csv
wants_pairs "$work/pairs.csv"
check "200,000 drawn pairs in compact mode, beside awk" 0 "" insert --mode compact < "$work/pairs.csv"
check_names "a walk of 100,000 lines in compact mode by 64 workers, line by line" "$work/walk.csv" insert --mode compact --workers 64 --block 1

# answers: a report without its identifiers
answers() {
  awk -F, -v OFS=, 'NF == 3 { $2 = "" } { print }'
}
./treedb insert < "$work/walk.csv" | answers > "$work/wanted"
./treedb insert --mode compact < "$work/walk.csv" | answers > "$work/got"
if [ -s "$work/wanted" ] && cmp -s "$work/got" "$work/wanted"; then
  tell "a walk is answered alike in both modes" yes
else
  tell "a walk is answered alike in both modes" no "$(diff "$work/got" "$work/wanted" | head -n 5)"
fi
wants '1,5,new\n2,6,new\n3,196614,new\nlines 3\ndistinct 3\n'
check "vectors of three slots in compact mode" 0 "" insert --mode compact --profile 16 < <(printf '5,0,0\n6,0,0\n6,0,1\n')
wants '1,805306373,new\n2,1342177283,new\n3,805306373,seen\nlines 3\ndistinct 2\nnodes 0\nstored 15\nraw 16\n'
check "statistics in compact mode" 0 "" insert --mode compact --stats < examples/pairs.csv

# Signed numbers: pairs with numbers on both sides of 0
awk -F, '{ print $1 - 498 "," $2 * -90001 + 20000000 }' "$work/pairs.csv" > "$work/signed.csv"
wants '1,262144,new\n2,4,new\n3,262144,seen\nlines 3\ndistinct 2\n'
check "signed vectors in compact mode" 0 "" insert --mode compact --profile 16 --signed < <(printf -- '-1,0\n0,-1\n-1,0\n')
check_names "200,000 signed pairs" "$work/signed.csv" insert --signed
check_names "200,000 signed pairs by 8 workers in compact mode" "$work/signed.csv" insert --signed --mode compact --workers 8
check_marks "200,000 signed pairs, marked by 8 workers" "$work/signed.csv" 8 64 --signed
LC_ALL=C sort -t, -k1,1n -k2,2n -u "$work/signed.csv" > "$work/wanted"
check "the different signed pairs, beside sort" 0 "" distinct --signed < "$work/signed.csv"
check "the same by 8 workers in compact mode" 0 "" distinct --signed --mode compact --workers 8 < "$work/signed.csv"
wants ''
check "a signed number that is out of range" 3 "treedb: record 1 field 1 is out of range" insert --signed < <(printf '2147483648,0\n')
check "a minus without --signed" 3 "treedb: record 1 field 2 is not a number" insert < <(printf '1,-1\n')

wants ''
check "no input" 3 "treedb: no records" insert < /dev/null
check "a record of one field" 3 "treedb: record 2 has 1 fields, the first has 2" insert < <(printf '1,2\n1\n')
check "a number that is too big" 3 "treedb: record 1 field 1 is too big" insert < <(printf '268435456,0\n')
check "one byte over the limit" 4 "treedb: input is over 67108864 bytes" insert < <(head -c 67108865 /dev/zero | tr '\0' '0')
usage='usage: treedb insert|distinct|bench|check|mark [--mode plain|compact] [--profile 16|28|31]'
check "no words" 2 "$usage" < examples/pairs.csv
check "another mode" 2 "$usage" insert --mode fast < examples/pairs.csv
check "a flag that the profile hasn't" 2 "$usage" mark --profile 31 --flag 1 < examples/pairs.csv
check "a word that is no text" 2 "$usage" insert --mode $'\xff' < examples/pairs.csv
check "a folder for input" 6 "treedb: read fault" insert < .

# Reports of whole runs, as they are and changed. judged NAME STATUS NOTE VERDICT TRACE REPORT WORDS..: the check of a report of a trace
judged() {
  local name=$1 status=$2 note=$3 verdict=$4 trace=$5 report=$6
  shift 6
  printf "$verdict" > "$work/wanted"
  { cat "$trace"; echo '#'; cat "$report"; } > "$work/both"
  check "$name" "$status" "$note" check "$@" < "$work/both"
}

# changed AWK: the report with its lines changed by an awk program
changed() {
  awk -F, -v OFS=, "$1" "$work/report" > "$work/changed"
}

for workers in 1 8 64; do
  ./treedb insert --workers $workers --block 16 --stats < "$work/pairs.csv" > "$work/report"
  judged "a report by $workers workers has a history" 0 "" 'yes\n' "$work/pairs.csv" "$work/report" --workers $workers --block 16
done
./treedb insert --signed --workers 8 < "$work/signed.csv" > "$work/report"
judged "a signed report has a history" 0 "" 'yes\n' "$work/signed.csv" "$work/report" --signed --workers 8
./treedb insert < "$work/walk.csv" > "$work/report"
lines=$(wc -l < "$work/walk.csv")
distinct=$(sed -n 's/^distinct //p' "$work/report")
judged "a report judged in compact mode" 0 "" 'yes\n' "$work/walk.csv" "$work/report" --mode compact

# the first line answered seen, its number and its identifier; the line that named it; and another identifier
seen=$(grep -n -m 1 ',seen$' "$work/report")
line=${seen%%:*}
id=$(cut -d, -f2 <<< "$seen")
first=$(grep -n -m 1 ",$id,new$" "$work/report" | cut -d: -f1)
other=$(awk -F, -v id="$id" '$3 == "new" && $2 != id { print $2; exit }' "$work/report")
changed "NR == $line { \$3 = \"new\" } { print }"
judged "a line seen that is told new" 9 "treedb: report line $((lines + 2)) is wrong" '' "$work/walk.csv" "$work/changed"
changed "NR == $line { \$3 = \"new\" } /^distinct/ { \$0 = \"distinct $((distinct + 1))\" } { print }"
judged "the same with its count" 10 "" "no twice $first $line\n" "$work/walk.csv" "$work/changed"
changed "NR == $first { \$3 = \"seen\" } { print }"
judged "a line new that is told seen" 9 "treedb: report line $((lines + 2)) is wrong" '' "$work/walk.csv" "$work/changed"
changed "NR == $first { \$3 = \"seen\" } /^distinct/ { \$0 = \"distinct $((distinct - 1))\" } { print }"
judged "the same with its count" 10 "" "no lone $first\n" "$work/walk.csv" "$work/changed"
changed "NR == $line { \$2 = \"$other\" } { print }"
judged "a line with another vector's identifier" 10 "" "no lone $line\n" "$work/walk.csv" "$work/changed"
changed "\$2 == \"$id\" { \$2 = \"18446744073709551615\" } { print }"
judged "an identifier that nobody has in place of one" 0 "" 'yes\n' "$work/walk.csv" "$work/changed"
head -c -1 "$work/report" > "$work/changed"
judged "a report without its last line feed" 9 "treedb: report line $((lines + 3)) is wrong" '' "$work/walk.csv" "$work/changed"
wants ''
check "a trace without a report" 9 "treedb: no report" check < "$work/walk.csv"

# a full device takes no report
./treedb insert < examples/pairs.csv > /dev/full 2> "$work/notes"
was=$?
if [ "$was" -eq 7 ] && [ "$(cat "$work/notes")" = "treedb: write fault" ]; then
  tell "a sink that takes nothing" yes
else
  tell "a sink that takes nothing" no "status $was, wanted 7"
fi

# the note stands behind all output
./treedb insert --roots 3 > "$work/got" 2>&1 < <(printf '0,0\n0,1\n0,2\n0,3\n0,4\n0,5\n0,6\n0,7\n0,8\n')
if [ "$(tail -n 2 "$work/got")" = $'distinct 8\ntreedb: 1 lines full' ] && [ "$(wc -l < "$work/got")" -eq 12 ]; then
  tell "the note comes last" yes
else
  tell "the note comes last" no "$(tail -n 2 "$work/got")"
fi

# a reader that goes away ends the run
./treedb insert < "$work/pairs.csv" 2> "$work/notes" | head -n 1 > "$work/got"
was=${PIPESTATUS[0]}
if [ "$was" -eq 7 ] && [ "$(cat "$work/notes")" = "treedb: write fault" ]; then
  tell "a pipe that closes early" yes
else
  tell "a pipe that closes early" no "status $was, wanted 7"
fi

# the manual's example: its commands, and what they write
block() { awk -v fence="\`\`\`$1" '$0 == fence { inside = 1; next } /^\`\`\`/ { inside = 0 } inside' docs/MANUAL.md; }
block sh > "$work/example"
block text > "$work/wanted"
bash "$work/example" > "$work/got" 2> "$work/notes"
if [ -s "$work/wanted" ] && cmp -s "$work/got" "$work/wanted" && [ "$(cat "$work/notes")" = "treedb: 1 lines full" ]; then
  tell "the manual's example" yes
else
  tell "the manual's example" no "$(diff "$work/got" "$work/wanted" | head -n 5)"
fi

# README's example gives what stands below it
sed -n 's/^    \$ //p' README.md | head -n 1 > "$work/example"
sed -n '/^    \$ /,/^$/p' README.md | sed -n '2,$s/^    //p' > "$work/wanted"
if [ -s "$work/wanted" ] && bash "$work/example" 2>&1 | cmp -s - "$work/wanted"; then
  tell "README's example" yes
else
  tell "README's example" no "$(cat "$work/example")"
fi

# README's lines in Rattle are those of crates/store_uses/src/first.rt, which is proved and tested; spaces,
# comments and a last comma tell nothing
bare() { sed 's,//.*,,' | tr -d ' \n' | sed 's/,}/}/g'; }
lines=$(sed -n '/^## From Rattle/,/^## /s/^    //p' README.md | bare)
if [ -n "$lines" ] && [[ $(bare < crates/store_uses/src/first.rt) == *"$lines"* ]]; then
  tell "README's lines in Rattle" yes
else
  tell "README's lines in Rattle" no "$lines"
fi

# the plots are those of their figures
if ! command -v python3 > /dev/null; then
  echo "skipped: the plots, for want of python3"
else
  python3 bench/plots.py --check > "$work/got" 2>&1
  was=$?
  tell "the plots and their figures" "$([ $was -eq 0 ] && echo yes)" "$(tail -n 1 "$work/got")"
fi

# the man page has each option and each note of the manual, and the manual each option of the usage text
./treedb 2> "$work/notes"
lacking=$(
  grep -oE -- '--[a-z]+' "$work/notes" | sort -u | while read -r option; do
    grep -q -- "^| \`$option\`" docs/MANUAL.md || echo "MANUAL.md: $option"
    sed 's/\\-/-/g' docs/treedb.1 | grep -qE -- "^\.B[IR]? $option" || echo "treedb.1: $option"
  done
  sed -n '/^## Exit status/,/^## Choosing/p' docs/MANUAL.md | grep -oE '\`[^\`]+\` \|$' | sed 's/^.//; s/. |$//' | while read -r note; do
    grep -qF "$note" docs/treedb.1 || echo "treedb.1: $note"
  done
)
if [ -z "$lacking" ]; then
  tell "the man page and the manual" yes
else
  tell "the man page and the manual" no "$lacking"
fi

echo "$passed passed, $failed failed"
[ "$failed" -eq 0 ]
