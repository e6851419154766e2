#!/usr/bin/env python3
"""Prints a Markdown table of px on select steps with a window over ROWS rows, each beside pandas, sqlite3 and data.table on the same bytes.

windows.py PX [ROWS] ; PX is the path of the executable. Seconds are wall seconds of a whole run, each the best of three; a peer prints a line for each row.
"""

import os
import shutil
import sys
import tempfile

from runs import measure, python_with_pandas, seconds, write

HERE = os.path.dirname(os.path.abspath(__file__))
K, X = {"col": "k"}, {"col": "x"}


def over(function, order, mapping):
    return {"over": {"function": function, "keys": [K], "order": order, "mapping": mapping}}


ASCENDING = [X, {"descending": False, "nulls_last": False}]
WINDOWS = {
    "sum": over({"agg": ["Sum", X]}, None, "GroupsToRows"),
    "order": over({"fn": ["Shift", 1, X]}, ASCENDING, "GroupsToRows"),
    "explode": over(X, None, "Explode"),
}


def document(rows, parts, window):
    columns = {
        "k": [row * 7919 % parts for row in range(rows)],
        "x": [row * 104729 % 1000003 for row in range(rows)],
    }
    return columns, [{"select": [{"alias": [window, "made"]}]}]


def peers(name):
    python = python_with_pandas()
    if python:
        yield "pandas", [python, f"{HERE}/peers/windows.py", name]
    if shutil.which("sqlite3"):
        yield "sqlite3", ["sqlite3", ":memory:", f".read {HERE}/peers/windows_{name}.sql"]
    if shutil.which("Rscript"):
        yield "data.table", ["Rscript", f"{HERE}/peers/windows.R", name]


def main(px, rows="1000000"):
    rows = int(rows)
    print(f"{rows} rows\n")
    print("| window | parts | px, seconds | twice the rows | peer | its seconds | px / peer |")
    print("|---|--:|--:|--:|---|--:|--:|")
    for name, window in WINDOWS.items():
        for parts in (1000, rows):
            with tempfile.NamedTemporaryFile("w") as file:
                write(file, *document(rows, parts, window))
                once = seconds([px, "run"], file.name)
                scale = 2 if parts > 1000 else 1
                twice = measure(px, document(2 * rows, scale * parts, window)) / once
                for peer, command in peers(name):
                    other = seconds(command, file.name)
                    print(f"| {name} | {parts} | {once:.3f} | {twice:.2f} | {peer} | {other:.3f} | {once / other:.3f} |", flush=True)


main(*sys.argv[1:])
