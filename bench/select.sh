#!/usr/bin/env bash
# Prints a Markdown table of px and jq on a select step of ten columns and two literals, each at its best of three.
# bench/select.sh [ROWS] [DIGITS] : each integer has so many digits; PX, where it is set, is the full path of an executable to measure in place of the one that ./px builds.
set -eu
export LC_ALL=C
cd "$(dirname "$0")/.."
rows=${1:-1000000} digits=${2:-1}
. bench/prepare.sh

python3 bench/make_select.py "$rows" "$digits" > "$work/document"
echo "$rows rows, integers of $digits digits, $(wc -c < "$work/document") bytes"
echo
echo "| tool | wall seconds | peak memory, MB | rows |"
echo "|---|--:|--:|---|"
measured=$(bench/measure.sh "$work/document" "$work/answer" "$PX" run)
# The first two lines are the names and the types of the columns.
tail -n +3 "$work/answer" > "$work/rows"
echo "$measured" | awk '{ printf "| px | %s | %s | |\n", $1, $2 }'
if command -v jq > /dev/null; then
    measured=$(bench/measure.sh "$work/document" "$work/answer" jq -c -f bench/peers/select.jq)
    same=differ
    if cmp -s "$work/answer" "$work/rows"; then same=same; fi
    echo "$measured $same" | awk '{ printf "| jq | %s | %s | %s |\n", $1, $2, $3 }'
fi
