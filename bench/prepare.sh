# Sourced by the benchmarks: builds px where PX names no executable, and makes a directory for files that do not stay.
if [ -z "${PX:-}" ]; then
    ./px run < examples/sum_and_length.json > /dev/null
    PX=crates/px_program/out/px_program
fi
work=$(mktemp -d)
trap 'rm -rf "$work"' EXIT
