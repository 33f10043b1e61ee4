#!/bin/sh
# Measures the built program, and the small program for what no script can reach, and prints tables of figures for
# docs/PERFORMANCE.md.
#   bench/run.sh PROGRAM [RUNS [SMALL]]
# PROGRAM is the built beliefdb, SMALL the built bdb_bench (which is left out where none is named; it wants python3, whose sqlite3
# it measures beside). Each figure is the least of RUNS runs (5 where none is named). Nothing is left behind. PARTS in the environment
# names the parts of bench/measure.rs to run, as `leaving largest` (all where none is named).
set -eu
[ $# -ge 1 ] || { echo "usage: bench/run.sh PROGRAM [RUNS [SMALL]]" >&2; exit 2; }
here=$(cd "$(dirname "$0")" && pwd)
work=$(mktemp -d)
trap 'rm -rf "$work"' EXIT
rustc -O --edition 2021 -o "$work/measure" "$here/measure.rs"
cp "$1" "$work/beliefdb"
# shellcheck disable=SC2086
"$work/measure" "$work/beliefdb" "$work" "${2:-5}" ${PARTS:-}
[ $# -ge 3 ] || exit 0
BENCH_FOLDER="$here" rustc -O --edition 2021 -o "$work/kept" "$here/kept.rs"
cp "$3" "$work/bdb_bench"
"$work/kept" "$work/bdb_bench" "$work" "${2:-5}"
