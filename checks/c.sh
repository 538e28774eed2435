#!/usr/bin/env bash
# The library for C: its header, its calls, its examples, each allocation failing in turn, threads, and a verifier
# made by SPIN, as the system's compiler builds them, and with its sanitizers where it has them.
# The last line says what was looked at; a fault ends with status 1. What is missing is skipped.
set -u
cd "$(dirname "${BASH_SOURCE[0]}")/.." || exit 1
work=$(mktemp -d)
trap 'rm -rf "$work"' EXIT
cc=${CC:-gcc}
warnings=(-Wall -Wextra -Wpedantic -Werror)
looked="the library for C"

if ! command -v "$cc" > /dev/null || ! command -v ar > /dev/null; then
  echo "the library for C: skipped, since there is no C compiler"
  exit 0
fi

fault() {
  echo "$1"
  cat "$work/log"
  exit 1
}

# build NAME SOURCE WORDS..: a program over the library
build() {
  local name=$1 source=$2
  shift 2
  "$cc" -std=c99 -O2 "${warnings[@]}" "$@" -Iinclude -o "$work/$name" "$source" "$work/lib/libtreedb.a" -lpthread \
    > "$work/log" 2>&1
}

# run NAME WORDS..: a program, which is to end with status 0 within two minutes
run() {
  local name=$1
  shift
  timeout 120 "$work/$name" "$@" > "$work/log" 2>&1 || fault "$name $*: status $?"
}

./clib "$work/lib" > "$work/log" 2>&1 || fault "the library is not built"

# the header alone, in both languages, and a program in C++
printf '#include "treedb.h"\n' > "$work/alone.c"
cp "$work/alone.c" "$work/alone.cpp"
"$cc" -std=c99 "${warnings[@]}" -Iinclude -fsyntax-only "$work/alone.c" > "$work/log" 2>&1 || fault "treedb.h in C99"
if command -v g++ > /dev/null; then
  g++ -std=c++11 "${warnings[@]}" -Iinclude -fsyntax-only "$work/alone.cpp" > "$work/log" 2>&1 || fault "treedb.h in C++11"
  g++ -std=c++11 "${warnings[@]}" -Iinclude -o "$work/plus" checks/c/plus.cpp "$work/lib/libtreedb.a" -lpthread \
    > "$work/log" 2>&1 || fault "plus.cpp is not built"
  run plus
fi

# the front page's lines, as a program
{
  printf '#include "treedb.h"\n#include <stdio.h>\nint main(void) {\n'
  sed -n '/^## From C/,/^## /s/^    //p' README.md
  printf '  return state[0] == 7 && state[1] == 0 && state[2] == 1 ? 0 : 1;\n}\n'
} > "$work/front.c"
build front "$work/front.c" || fault "the front page's lines in C are not built"
run front
grep -qE '^state [0-9]+ is new$' "$work/log" || fault "the front page's lines in C"

for name in calls memory threads; do
  build $name checks/c/$name.c || fault "$name.c is not built"
  run $name
done
for name in search philosophers; do
  build $name examples/c/$name.c || fault "$name.c is not built"
done

# the search, beside one by another program in another language
run search
if command -v python3 > /dev/null; then
  [ "$(cat "$work/log")" = "$(python3 examples/c/philosophers.py)" ] || fault "search.c and philosophers.py differ"
fi
for workers in 1 2 4 8; do run philosophers $workers; done

# what a sanitizer sees of the C side
sanitized() {
  local kind=$1
  shift
  printf 'int main(void) { return 0; }\n' > "$work/none.c"
  "$cc" "-fsanitize=$kind" -o "$work/none" "$work/none.c" > "$work/log" 2>&1 && "$work/none" || return 0
  for source in "$@"; do
    build sanitized "$source" -g "-fsanitize=$kind" -fno-sanitize-recover || fault "$source with $kind"
    run sanitized
  done
  looked+=", $kind"
}
sanitized address,undefined checks/c/calls.c checks/c/memory.c examples/c/search.c examples/c/philosophers.c
sanitized thread checks/c/threads.c examples/c/philosophers.c

if command -v spin > /dev/null; then
  CC=$cc bash examples/c/spin/compare.sh "$work/lib/libtreedb.a" > "$work/log" 2>&1 || fault "the verifier that SPIN made"
  looked+=", a verifier of SPIN's"
fi
echo "$looked"
