#!/bin/sh
# Every figure of docs/BENCHMARKS.md and docs/SPEED.md in one run, with the chart: SRC=path/to/docs/src bench/run.sh [RUNS]
#   SRC   where the published Rust stands (see oracle/README.md); nothing of it is kept in the repository
#   RUNS  how often the driver runs, of which the least time counts (default 3)
# Needs what bench/build.sh needs; valgrind for the growth by instructions, which is left out where there is none.
set -eu
top=$(cd "$(dirname "$0")/.." && pwd)
cd "$top"
runs=${1:-3}
(cd crates/sogbayile && rt lib) >/dev/null
(cd crates/cell && rt run </dev/null) >/dev/null
bench/build.sh
out=target/bench
rm -f "$out"/run.*.csv "$out"/noted.*.csv
for i in $(seq "$runs"); do
    "$out/driver" 10 >"$out/run.$i.csv"
    "$out/driver" 10 --annotated >"$out/noted.$i.csv"
done
python3 bench/chart.py docs/benchmarks.svg "$out"/run.*.csv -- "$out"/noted.*.csv
python3 bench/names.py
python3 bench/refused.py
python3 bench/lines.py crates/cell/out/cell "$out/oracle/oracle" 7
command -v valgrind >/dev/null || exit 0
for command in shift free bind fill prune point member named; do
    for words in 2000 8000; do
        for kind in "" annotated; do
            python3 bench/rows.py "$command" "$words" 40 "$words" $kind >"$out/rows"
            valgrind --tool=callgrind --callgrind-out-file="$out/cg" crates/cell/out/cell <"$out/rows" 2>&1 >/dev/null |
                sed -n "s/.*Collected : /instructions of $command, 40 rows of $words words${kind:+, annotated}: /p"
        done
    done
done
