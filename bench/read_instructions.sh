#!/usr/bin/env bash
# bench/read_instructions.sh: instructions a line of `measure read-trace` by callgrind, on the first 50,000
# lines of the traces M and R: as they are, with CRLF, with a quote in the last line, and with a space after
# each comma.
# Needs ../shared/yardstick, g++ and valgrind.
source "$(dirname "${BASH_SOURCE[0]}")/setup.sh"
lines=50000

make -s -C "$yard" OUT="$out" "$out/tracegen"
"$yard/traces.sh" "$out" M R
(cd crates/measure && rt run -- read-trace 1 < stdin > /dev/null 2>&1)

count() {
  local all
  all=$(valgrind --tool=callgrind --callgrind-out-file="$out/cg.out" crates/measure/out/measure read-trace 1 \
    < "$out/t/case" 2>&1 | sed -n 's/.*Collected : //p')
  echo "$1 $((all / lines))"
}

for name in M R; do
  head -n $lines "$out/t/$name" > "$out/t/$name.head"
  cp "$out/t/$name.head" "$out/t/case" && count "$name"
  sed 's/$/\r/' "$out/t/$name.head" > "$out/t/case" && count "$name, CRLF"
  sed '$ s/,\([0-9]*\)$/,"\1"/' "$out/t/$name.head" > "$out/t/case" && count "$name, a quote in the last line"
  sed 's/,/, /g' "$out/t/$name.head" > "$out/t/case" && count "$name, a space after each comma"
done
