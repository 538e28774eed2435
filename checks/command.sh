#!/usr/bin/env bash
# The command ./treedb, tried in a folder with the crates' names and a stand-in for `rt`, and ./install, tried
# with a folder of its own: when the program is built and when not, by which way it is called, and what is told.
# The last line says what was looked at; a fault ends with status 1.
set -u
cd "$(dirname "${BASH_SOURCE[0]}")/.." || exit 1
work=$(mktemp -d)
trap 'rm -rf "$work"' EXIT
tree=$work/tree
export PATH="$work/bin:$PATH"

fault() {
  echo "$1"
  cat "$work/out" "$work/err"
  exit 1
}

# call COMMAND..: its status, output and what it told
call() {
  "$@" > "$work/out" 2> "$work/err" < /dev/null
  was=$?
}

# ran STATUS WORDS: the program was run with these words, and ended so
ran() {
  [ $was -eq "$1" ] && [ "$(cat "$work/out")" = "ran $2" ] || fault "$3"
}

mkdir -p "$tree/crates" "$work/bin" "$work/far"
cp treedb crates.txt "$tree"
grep -v '^#' crates.txt | while IFS=': ' read -r crate rest; do
  mkdir -p "$tree/crates/$crate/src"
  echo "// $crate" > "$tree/crates/$crate/src/lib.rt"
done
touch "$tree/crates/treedb/stdin"
cat > "$work/bin/rt" <<'END'
#!/usr/bin/env bash
if [ -e "$BROKEN" ]; then echo "something first"; echo "src/lib.rt:1:1: error: no such word"; echo "and more"; exit 1; fi
mkdir -p out
if [ "$1" = doc ]; then echo "$KIT/START-HERE.md"; fi
if [ "$1" = lib ]; then ar rc out/libtreedb_c.a "$KIT/c/member"; fi
if [ "$1" = run ]; then
  printf '#!/bin/sh\necho "ran $*"\n[ $# -eq 5 ] || exit 5\n' > out/treedb
  chmod +x out/treedb
fi
END
chmod +x "$work/bin/rt"
export BROKEN=$work/broken KIT=$work/kit
mkdir -p "$KIT/c"
echo "a member" > "$KIT/c/member"
ar rc "$KIT/c/liblibc_c.a"

call "$tree/treedb" insert --stats
ran 5 "insert --stats" "a first call"
grep -q '^treedb: pair_rule, [0-9]* s, [0-9]* left$' "$work/err" || fault "no crate is named"
grep -q '^treedb: treedb, [0-9]* s, 1 left$' "$work/err" || fault "the last crate isn't named"
grep -q '^treedb: built in [0-9]* s$' "$work/err" || fault "no time is told"
call "$tree/treedb" bench
ran 5 bench "a second call"
[ ! -s "$work/err" ] || fault "a second call tells something"

ln -s "$tree/treedb" "$work/far/linked"
(cd "$work/far" && ln -s linked again)
call "$work/far/again" check
ran 5 check "through two links"
[ ! -s "$work/err" ] || fault "a call through links builds"
cd "$tree" || exit 1
call ./treedb check
ran 5 check "from its own folder"
call bash treedb check
ran 5 check "by its bare name"
cd - > /dev/null || exit 1

touch -d '+1 minute' "$tree/crates/pair_rule/src/lib.rt"
call "$tree/treedb" bench
ran 5 bench "after a touch"
[ ! -s "$work/err" ] || fault "a touched source is built again"
cp -r "$tree" "$work/copy"
call "$work/copy/treedb" bench
ran 5 bench "in a copy"
[ ! -s "$work/err" ] || fault "a copy is built again"
sleep 0.01
echo "// more" >> "$tree/crates/pair_rule/src/lib.rt"
touch -d '+2 minutes' "$tree/crates/pair_rule/src/lib.rt"
call "$tree/treedb" bench
ran 5 bench "after a change"
grep -q '^treedb: built' "$work/err" || fault "a change isn't built"

echo "// yet more" >> "$tree/crates/pair_rule/src/lib.rt"
touch -d '+3 minutes' "$tree/crates/pair_rule/src/lib.rt"
touch "$BROKEN"
call "$tree/treedb" bench
[ $was -eq 1 ] && [ ! -s "$work/out" ] || fault "a failed build"
grep -q 'error: no such word' "$work/err" || fault "the line that matters isn't shown"
grep -q "treedb/out.log has all" "$work/err" || fault "the log isn't named"
rm "$BROKEN"

# Installed, it runs from its own folder, has its page, and leaves nothing behind when it is taken away.
mkdir "$tree/docs" "$tree/include"
cp docs/treedb.1 "$tree/docs"
cp include/treedb.h "$tree/include"
cp install clib "$tree"
prefix="$work/a prefix"
call "$tree/install" "$prefix"
[ $was -eq 0 ] && [ ! -s "$work/out" ] || fault "an installation"
(cd "$prefix" && find . -type f | sort) > "$work/out"
printf './%s\n' bin/treedb include/treedb.h lib/libtreedb.a lib/pkgconfig/treedb.pc libexec/treedb/treedb \
  share/man/man1/treedb.1 | cmp -s - "$work/out" || fault "other files are installed"
[ "$(ar t "$prefix/lib/libtreedb.a")" = member ] || fault "the library isn't what was made"
if command -v pkg-config > /dev/null; then
  PKG_CONFIG_PATH="$prefix/lib/pkgconfig" call pkg-config --cflags --libs --static treedb
  grep -q "prefix/include" "$work/out" && grep -q -- "-ltreedb -lpthread" "$work/out" || fault "pkg-config"
fi
call "$prefix/bin/treedb" mark --flag 1
ran 5 "mark --flag 1" "the installed command"
call "$tree/install" --uninstall "$prefix"
[ $was -eq 0 ] && [ -z "$(find "$prefix" -type f)" ] || fault "files are left"
[ ! -e "$prefix/libexec/treedb" ] || fault "a folder is left"
for words in "--help" "a b" "--uninstall a b"; do
  # shellcheck disable=SC2086
  call "$tree/install" $words
  [ $was -eq 2 ] && grep -q '^usage: ./install' "$work/err" || fault "install takes $words"
done

rm "$work/bin/rt" "$tree/crates/treedb/out/treedb"
PATH=/usr/bin:/bin call "$tree/treedb" bench
[ $was -eq 1 ] && grep -q "toolchain isn't here" "$work/err" || fault "without the toolchain"

echo "./treedb builds where it must, by any way of calling it, and says what it does; ./install puts it and the library for C in place and takes them away"
