#!/usr/bin/env python3
"""Prints a Markdown table of px on group steps over ROWS rows, each beside pandas, sqlite3 and data.table on the same bytes, and of px on many aggregations.

groups.py PX [ROWS] ; PX is the path of the executable. Seconds are wall seconds of a whole run: of px the best of five, in turn with a document of twice the rows, of a peer the best of three; a peer prints a line for each group.
"""

import os
import shutil
import sys
import tempfile

from runs import measure, python_with_pandas, seconds, seconds_in_turn, write

HERE = os.path.dirname(os.path.abspath(__file__))
A, B = {"col": "a"}, {"col": "b"}
PLAIN = {"descending": False, "nulls_last": False}


def aggregate(name, expression, *more):
    return {"agg": [name, expression, *more]}


def integer(value):
    return {"lit": {"type": "Int64", "value": value}}


TEN = [
    aggregate("Sum", A),
    aggregate("Min", A),
    aggregate("Max", A),
    aggregate("First", A),
    aggregate("Last", A),
    aggregate("NUnique", B),
    aggregate("Count", A, False),
    {"len": None},
    aggregate("Sum", {"bin": ["Multiply", A, B]}),
    aggregate("Sum", {"filter": [A, {"bin": ["Lt", A, B]}]}),
]
STEPS = {
    "ten": TEN,
    "slice": [{"slice": [{"sort": [A, PLAIN]}, integer(0), integer(3)]}],
    "list": [A],
}


def document(rows, groups, aggregations):
    columns = {
        "k": [row * 7919 % groups for row in range(rows)],
        "a": [row * 7919 % 1000003 for row in range(rows)],
        "b": [row * 104729 % 1009 for row in range(rows)],
    }
    named = [{"alias": [it, f"m{place}"]} for place, it in enumerate(aggregations)]
    step = {"group": {"keys": [{"col": "k"}], "aggs": named, "chunks": None}}
    return columns, [step]


def many(rows, width):
    """As many columns as aggregations, each the sum of a product with a column of its own."""
    columns = {"k": [row % 100 for row in range(rows)]}
    columns |= {f"c{it}": [row % 7 for row in range(rows)] for it in range(width)}
    made = [aggregate("Sum", {"bin": ["Plus", {"col": f"c{it}"}, integer(1)]}) for it in range(width)]
    step = {"group": {"keys": [{"col": "k"}], "aggs": made, "chunks": None}}
    return columns, [step]


def peers(step):
    python = python_with_pandas()
    if python:
        yield "pandas", [python, f"{HERE}/peers/groups.py", step]
    if shutil.which("sqlite3"):
        yield "sqlite3", ["sqlite3", ":memory:", f".read {HERE}/peers/groups_{step}.sql"]
    if shutil.which("Rscript"):
        yield "data.table", ["Rscript", f"{HERE}/peers/groups.R", step]


def main(px, rows="1000000"):
    rows = int(rows)
    print(f"{rows} rows\n")
    print("| step | groups | px, seconds | twice the rows | peer | its seconds | px / peer |")
    print("|---|--:|--:|--:|---|--:|--:|")
    for step, aggregations in STEPS.items():
        for groups in (1000, rows // 3, rows):
            with tempfile.NamedTemporaryFile("w") as file, tempfile.NamedTemporaryFile("w") as twice_file:
                scale = 2 if groups > 1000 else 1
                write(file, *document(rows, groups, aggregations))
                write(twice_file, *document(2 * rows, scale * groups, aggregations))
                once, twice = seconds_in_turn([px, "run"], [file.name, twice_file.name])
                for name, command in peers(step):
                    other = seconds(command, file.name)
                    print(f"| {step} | {groups} | {once:.3f} | {twice / once:.2f} | {name} | {other:.3f} | {once / other:.3f} |", flush=True)
    print("\n| aggregations over as many columns, 2000 rows | px, seconds |\n|--:|--:|")
    for width in (500, 1000, 2000):
        print(f"| {width} | {measure(px, many(2000, width)):.3f} |", flush=True)


main(*sys.argv[1:])
