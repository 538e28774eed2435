# Sourced by the scripts of this folder: a first fault ends them, they run in the project's folder, and the yardstick's programs are built outside of it.
set -eu
cd "$(dirname "${BASH_SOURCE[0]}")/.."
yard=${YARD:-../shared/yardstick}
out=${TMPDIR:-/tmp}/treedb-yardstick
mkdir -p "$out"
measure=$PWD/crates/measure/out/measure

# proves and builds the program that times the parts, where it has changed
build_measure() {
  (cd crates/measure && rt run -- nodes 3 1 > /dev/null 2>&1)
}
