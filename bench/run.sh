#!/bin/sh
# Measures the built program and its peers on the formulas of bench/formulas.py, and prints a table in Markdown.
#
#     run.sh [SIZE]..        S where none is named; M for larger ones
#
# The programs are copro with 0, 1, 2 and 4 workers, and of the peers `minisat -pre`, which simplifies only, and `cadical -c 0 -P1`,
# those that are on the PATH. Each runs RUNS times (3 where it isn't set) on each formula, in turn, and the fastest run counts.
set -u
top=$(cd "$(dirname "$0")/.." && pwd)
program=${COPRO:-$top/crates/copro/out/copro}
[ -x "$program" ] || { echo "bench: $program isn't built: run ./copro once" >&2; exit 2; }
[ -x /usr/bin/time ] || { echo "bench: GNU time is needed as /usr/bin/time" >&2; exit 2; }
[ $# -ge 1 ] || set -- S

folder=$(mktemp -d) || exit 71
trap 'rm -rf "$folder"' EXIT
trap 'exit 130' INT
trap 'exit 143' TERM
mkdir "$folder/formulas" || exit
for size in "$@"; do
    python3 "$top/bench/formulas.py" "$size" "$folder/formulas" || exit
done
python3 "$top/bench/measure.py" "$program" "$folder" "${RUNS:-3}"
