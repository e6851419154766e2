#!/usr/bin/env bash
# Prints a Markdown table of px and the peers that are installed on five steps: an operator on another, a choice, a filter, a sort by two keys and membership among 1,000 values, each at its best of three, and of px on twice the rows.
# bench/steps.sh [ROWS] : PX, where it is set, is the full path of an executable to measure in place of the one that ./px builds.
set -eu
export LC_ALL=C
cd "$(dirname "$0")/.."
rows=${1:-1000000}
. bench/prepare.sh

python=
for it in python3 /usr/bin/python3; do
    if [ -z "$python" ] && "$it" -c 'import pandas' 2> /dev/null; then python=$it; fi
done

# A peer's answer has a line for each row.
compare() {
    local step=$1 name=$2 measured seconds memory same=differ
    shift 2
    if ! command -v "$1" > /dev/null; then
        echo "| $step | $name | not installed | | | |"
    elif ! measured=$(bench/measure.sh "$work/document" "$work/answer" "$@"); then
        echo "| $step | $name | failed | | | |"
    else
        read -r seconds memory <<< "$measured"
        if cmp -s "$work/answer" "$work/rows"; then same=same; fi
        echo "$step $name $seconds $memory $px_seconds $same" |
            awk '{ printf "| %s | %s | %s | %s | %.3f | %s |\n", $1, $2, $3, $4, $5 / $3, $6 }'
    fi
}

echo "$rows rows"
echo
echo "| step | tool | wall seconds | peak memory, MB | seconds, px / tool | rows |"
echo "|---|---|--:|--:|--:|---|"
for step in arithmetic when filter sort_by is_in; do
    python3 bench/make_steps.py "$step" "$((2 * rows))" > "$work/document"
    read -r twice _ <<< "$(bench/measure.sh "$work/document" "$work/answer" "$PX" run)"
    python3 bench/make_steps.py "$step" "$rows" > "$work/document"
    read -r px_seconds px_memory <<< "$(bench/measure.sh "$work/document" "$work/answer" "$PX" run)"
    # The first two lines are the names and the types of the columns.
    tail -n +3 "$work/answer" > "$work/rows"
    echo "$step $px_seconds $px_memory $twice" |
        awk '{ printf "| %s | px | %s | %s | 1 | twice the rows: %.2f |\n", $1, $2, $3, $4 / $2 }'
    compare "$step" jq jq -c --arg step "$step" -f bench/peers/steps.jq
    compare "$step" sqlite3 sqlite3 :memory: ".read bench/peers/steps_$step.sql"
    compare "$step" pandas "$python" bench/peers/steps.py "$step"
done
