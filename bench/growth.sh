#!/usr/bin/env bash
# Prints a Markdown table of px at ROWS and twice ROWS rows, with 1000 keys and with a key for each row, each at its best of three.
# bench/growth.sh [ROWS] : PX, where it is set, is the full path of an executable to measure in place of the one that ./px builds.
set -eu
export LC_ALL=C
cd "$(dirname "$0")/.."
rows=${1:-1000000}
. bench/prepare.sh

# Prints the seconds and the MB of a run.
run() {
    python3 bench/make_document.py "$1" "$2" > "$work/document"
    bench/measure.sh "$work/document" "$work/answer" "$PX" run
}

compare() {
    local single double
    single=$(run "$rows" "$1")
    double=$(run "$((2 * rows))" "$2")
    echo "$rows $1 $single $((2 * rows)) $2 $double" | awk '{
        printf "| %d | %d | %s | %s | | |\n", $1, $2, $3, $4
        printf "| %d | %d | %s | %s | %.2f | %.2f |\n", $5, $6, $7, $8, $7 / $3, $8 / $4
    }'
}

echo "| rows | keys | wall seconds | peak memory, MB | seconds, to half the rows | memory, to half the rows |"
echo "|--:|--:|--:|--:|--:|--:|"
compare 1000 1000
compare "$rows" "$((2 * rows))"
