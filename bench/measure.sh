#!/usr/bin/env bash
# Runs a command three times on a document, and prints its least wall seconds and least peak memory in MB (needs GNU time).
# bench/measure.sh DOCUMENT ANSWER COMMAND.. : the command's standard output goes to the file ANSWER.
set -euo pipefail
export LC_ALL=C
document=$1 answer=$2
shift 2

for _ in 1 2 3; do
    begin=$EPOCHREALTIME
    /usr/bin/time -q -f %M -o "$answer.memory" "$@" < "$document" > "$answer"
    echo "$begin $EPOCHREALTIME $(cat "$answer.memory")"
done | awk '
    { seconds = $2 - $1 }
    NR == 1 || seconds < least_seconds { least_seconds = seconds }
    NR == 1 || $3 < least_memory { least_memory = $3 }
    END { printf "%.3f %.1f\n", least_seconds, least_memory / 1024 }'
