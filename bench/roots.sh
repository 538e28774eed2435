#!/usr/bin/env bash
# bench/roots.sh: roots that are put, put again and looked for, compact and plain, ours and the yardstick's: instructions a call by callgrind, by one thread, and
# nanoseconds a call by one, two and four threads, best of so many rounds in turns. Needs ../shared/yardstick, g++ and valgrind. COUNT=no leaves out what callgrind counts.
source "$(dirname "${BASH_SOURCE[0]}")/setup.sh"
rounds=${ROUNDS:-5}

g++ -O3 -std=c++17 -march=x86-64-v3 -pthread -I"$yard" bench/roots.cpp -o "$out/roots"
build_measure

counted() {
  valgrind --tool=callgrind --callgrind-out-file="$out/cg.out" "$@" 2>&1 | sed -n 's/.*Collected : //p'
}
calls() { echo $(((1 << 18) * $1 / 100)); }

# instructions a call, of a call at this fill: a new root, one put again, one looked for
instructions() {
  local program=$1 table=$2 s=$3 fill=$4 low high none
  low=$(counted $program "$table" "$s" $((fill - 2)) 0 0)
  high=$(counted $program "$table" "$s" $((fill + 2)) 0 0)
  none=$(counted $program "$table" "$s" "$fill" 0 0)
  echo $(((high - low) / ($(calls $((fill + 2))) - $(calls $((fill - 2)))))) \
    $((($(counted $program "$table" "$s" "$fill" 1 0) - none) / $(calls "$fill"))) \
    $((($(counted $program "$table" "$s" "$fill" 0 1) - none) / $(calls "$fill")))
}

# nanoseconds a call of both programs, ours first, the same; a new root's are of all puts up to this fill, and by threads the calls of all of them are counted
times() {
  local table=$1 s=$2 fill=$3 threads=$4
  for ((i = 0; i < rounds; i++)); do
    echo "ours $("$measure" roots "$table" "$s" "$fill" 3 3 "$threads" 2>&1)"
    echo "theirs $("$out/roots" "$table" "$s" "$fill" 3 3 "$threads" 2>&1)"
  done | awk -v calls="$(calls "$fill")" '
    { for (i = 3; i <= 5; i++) if (!(($1, i) in low) || $i < low[$1, i]) low[$1, i] = $i }
    function ns(who) { return sprintf("%.1f %.1f %.1f", low[who, 3] * 1000 / calls, low[who, 4] * 1000 / calls / 3, low[who, 5] * 1000 / calls / 3) }
    END { print "ours", ns("ours"), "ns, theirs", ns("theirs"), "ns" }'
}

tables() {
  for fill in 25 50 75 90; do
    "$1" 1 8 $fill "plain $fill%"
    for s in 8 12; do "$1" 2 $s $fill "compact s=$s $fill%"; done
  done
}
count() {
  echo "$4: ours $(instructions "$measure roots" "$1" "$2" "$3") instructions, theirs $(instructions "$out/roots" "$1" "$2" "$3") instructions"
}
time_all() {
  for threads in 1 2 4; do echo "$4, threads $threads: $(times "$1" "$2" "$3" $threads)"; done
}

echo "$(nproc) cores, load $(cut -d' ' -f1 /proc/loadavg); new, again, looked for"
tables time_all
[ "${COUNT:-yes}" = no ] || tables count
