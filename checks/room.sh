#!/usr/bin/env bash
# Tables with just room for all nodes and roots of a trace take it whole, and smaller ones fill up: TRACES (200)
# drawn traces in each mode, all lines different, of 3 to 9 slots, inserted, inserted by workers that draw their
# blocks, and marked in turn. The last line says what was looked at; a fault ends with status 1.
set -u
cd "$(dirname "${BASH_SOURCE[0]}")/.." || exit 1
traces=${TRACES:-200}
work=$(mktemp -d)
trap 'rm -rf "$work"' EXIT
RANDOM=7
jobs=(insert "insert --claims" mark)

# exponent LEAST NEED: the least number from LEAST up whose power of two reaches the need
exponent() {
  local e=$1
  while [ $((1 << e)) -lt "$2" ]; do e=$((e + 1)); done
  echo $e
}

# fault WHAT: tells of a trace that was answered otherwise
fault() {
  echo "$1: $job in $mode mode, trace $i of $lines lines of $slots slots, nodes $nodes, roots $roots"
  exit 1
}

# insert NODES ROOTS: the job over tables of these sizes; a compact one is one region
insert() {
  local region=()
  if [ $mode = compact ]; then region=(--region "$2"); fi
  # shellcheck disable=SC2086
  ./treedb $job --mode $mode --nodes "$1" --roots "$2" "${region[@]}" --workers $((1 + i % 4)) --block 1 \
    < "$work/trace" > "$work/report" 2> /dev/null
}

# smaller NODES ROOTS CAUSE: the job over a smaller table is done, or some line is full for this cause and none
# for another; full counts such runs
smaller() {
  insert "$1" "$2"
  local was=$?
  if [ $was -eq 5 ]; then
    full[$3]=$((${full[$3]} + 1))
    grep -q ",,$3\(,\|\$\)" "$work/report" || fault "no line of $3"
    grep ',,full-' "$work/report" | grep -qv ",,$3" && fault "another cause than $3"
  elif [ $was -ne 0 ]; then
    fault "status $was"
  fi
  return 0
}

for mode in plain compact; do
  declare -A full=([full-nodes]=0 [full-roots]=0)
  if [ $mode = plain ]; then least=3; else least=6; fi
  for ((i = 0; i < traces; i++)); do
    job=${jobs[$((i % 3))]}
    slots=$((3 + RANDOM % 7))
    lines=$((5 + RANDOM % 150))
    awk -v lines=$lines -v slots=$slots -v seed=$RANDOM 'BEGIN { srand(seed)
      for (i = 0; i < lines; i++) { line = i
        for (j = 1; j < slots; j++) line = line "," int(rand() * 1000)
        print line } }' > "$work/trace"
    nodes=$(exponent 3 $(((slots - 2) * lines)))
    roots=$(exponent $least $lines)
    insert "$nodes" "$roots"
    was=$?
    [ $was -eq 0 ] || fault "status $was"
    grep -qx "distinct $lines" "$work/report" || fault "another count"
    [ "$nodes" -eq 3 ] || smaller $((nodes - 1)) "$roots" full-nodes
    [ "$roots" -eq $least ] || smaller "$nodes" $((roots - 1)) full-roots
  done
  for cause in full-nodes full-roots; do
    if [ "${full[$cause]}" -eq 0 ]; then
      echo "no smaller table gave $cause in $mode mode"
      exit 1
    fi
  done
done
echo "$traces traces in each mode have room in the least tables that are told to suffice; of the next smaller" \
  "ones some have no room for nodes, and some none for roots"
