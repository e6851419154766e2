#!/usr/bin/env python3
"""Prints which modules of a crate's proof took longest, from the dates of the files that a check with one job has kept.

modules.py CRATE [COUNT] ; after `rt check --jobs 1` in the crate's folder, from nothing. It is no part of the gate.
"""

import collections
import sys
from pathlib import Path

CRATES = Path(__file__).resolve().parent.parent / "crates"


def kept_modules(crate):
    """The modules in the order in which they were kept, with their times."""
    files = (CRATES / crate / "out" / "incremental").rglob("*.oantt")
    kept = [(it.stat().st_mtime, it.stem) for it in files if not it.stem.endswith(".decls")]
    return sorted(kept)


def main(crate, count="20"):
    kept = kept_modules(crate)
    if not kept:
        sys.exit(f"{crate}: nothing is kept: run rt check --jobs 1 first")
    spent = [(after - before, name) for (before, _), (after, name) in zip(kept, kept[1:])]
    kinds = collections.Counter()
    for seconds, name in spent:
        kinds[name.rpartition(".")[2].partition("-")[0]] += seconds
    print(f"{crate}: {kept[-1][0] - kept[0][0]:.0f} seconds")
    print(", ".join(f"{kind} {seconds:.0f}" for kind, seconds in kinds.most_common(6)))
    for seconds, name in sorted(spent, reverse=True)[: int(count)]:
        print(f"{seconds:7.1f} {name}")


if __name__ == "__main__":
    main(*sys.argv[1:])
