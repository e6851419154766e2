#!/usr/bin/env bash
# Prints a Markdown table that compares px with the peers that are installed, each at its best of three on the same document.
# bench/run.sh [ROWS] [KEYS] [TYPE] : TYPE is that of the keys, Int64 or String; PX, where it is set, is the full path of an executable to measure in place of the one that ./px builds.
set -eu
export LC_ALL=C
cd "$(dirname "$0")/.."
rows=${1:-1000000} keys=${2:-1000} type=${3:-Int64}
. bench/prepare.sh

# A peer's answer has a line [key,sum,rows] for each group, in any order.
compare() {
    local name=$1 measured seconds memory groups=differ
    shift
    if ! command -v "$1" > /dev/null; then
        echo "| $name | not installed | | | | |"
    elif ! measured=$(bench/measure.sh "$work/document" "$work/answer" "$@"); then
        echo "| $name | failed | | | | |"
    else
        read -r seconds memory <<< "$measured"
        if sort "$work/answer" | cmp -s - "$work/groups"; then groups=same; fi
        echo "$name $seconds $memory $px_seconds $px_memory $groups" |
            awk '{ printf "| %s | %s | %s | %.3f | %.3f | %s |\n", $1, $2, $3, $4 / $2, $5 / $3, $6 }'
    fi
}

python=
for it in python3 /usr/bin/python3; do
    if [ -z "$python" ] && "$it" -c 'import pandas' 2> /dev/null; then python=$it; fi
done

python3 bench/make_document.py "$rows" "$keys" "$type" > "$work/document"
measured=$(bench/measure.sh "$work/document" "$work/answer" "$PX" run)
read -r px_seconds px_memory <<< "$measured"
# The first two lines are the names and the types of the columns.
tail -n +3 "$work/answer" | sort > "$work/groups"

echo "$rows rows, $type keys, $(wc -l < "$work/groups") groups, $(wc -c < "$work/document") bytes"
echo
echo "| tool | wall seconds | peak memory, MB | seconds, px / tool | memory, px / tool | groups |"
echo "|---|--:|--:|--:|--:|---|"
echo "| px | $px_seconds | $px_memory | 1 | 1 | |"
compare jq jq -c -f bench/peers/sum_and_length.jq
compare Miller mlr --ijson put -q -f bench/peers/sum_and_length.mlr
compare sqlite3 sqlite3 :memory: '.read bench/peers/sum_and_length.sql'
compare pandas "$python" bench/peers/sum_and_length.py
echo
echo "$px_memory $rows" | awk '{ printf "px: %.0f bytes of peak memory for each row\n", $1 * 1048576 / $2 }'
