#!/usr/bin/env bash
# Runs the gate from nothing in a clone of the committed state, and prints a Markdown table of the processor seconds of each crate's proof, tests and edits, their sum, and the longest chain of proofs.
# Beside it, two crates of an earlier revision are proved over and over: by them the sum is told as a share of that revision's gate.
# bench/gate.sh : what the gate prints goes to standard error. It is no part of the gate.
set -eu
export LC_ALL=C
top=$(git -C "$(dirname "$0")" rev-parse --show-toplevel)
work=$(mktemp -d)
trap 'rm -rf "$work"' EXIT
git clone -q "$top" "$work/clone"
git clone -q "$top" "$work/before"
git -C "$work/before" checkout -q 7c81fe5
python3 "$top/bench/gate.py" "$work/clone" "$work/before"
