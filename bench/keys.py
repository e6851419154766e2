#!/usr/bin/env python3
"""Prints a Markdown table of px on a group step by two and by six keys, half of them texts, over ROWS rows and 1,000 groups, beside pandas and sqlite3 on the same bytes.

keys.py PX [ROWS] ; PX is the path of the executable. Seconds are wall seconds of a whole run, each the best of three; a peer prints a line for each group.
"""

import os
import shutil
import sys
import tempfile

from runs import measure, python_with_pandas, seconds, write

HERE = os.path.dirname(os.path.abspath(__file__))
KEYS = [int, "key {}".format, lambda it: it % 10, lambda it: f"part {it % 7}", lambda it: it // 10, "a longer name {}".format]


def document(rows, count):
    groups = [row * 7919 % 1000 for row in range(rows)]
    columns = {f"k{place}": [key(it) for it in groups] for place, key in enumerate(KEYS[:count])}
    names = list(columns)
    columns["x"] = [row % 1009 for row in range(rows)]
    aggregations = [{"agg": ["Sum", {"col": "x"}]}, {"len": None}]
    return columns, [{"group": {"keys": [{"col": it} for it in names], "aggs": aggregations, "chunks": None}}]


def query(count):
    """The columns are joined by row number, which is a primary key."""
    names = [f"k{place}" for place in range(count)]
    lines = ["create table document as select cast(readfile('/dev/stdin') as text) as body;"]
    for place, name in enumerate(names):
        lines.append(f"create table {name} (row integer primary key, value);")
        lines.append(f"insert into {name} select key, value from document, json_each(body, '$.columns[{place}].values');")
    values = ", ".join(f"{name}.value" for name in names)
    joins = " ".join(f"cross join {name} on {name}.row = x.key" for name in names)
    rows = f"document cross join json_each(body, '$.columns[{count}].values') x {joins}"
    lines.append(f"select json_array({values}, sum(x.value), count(*)) from {rows} group by {values} order by min(x.key);")
    return " ".join(lines)


def peers(count):
    python = python_with_pandas()
    if python:
        yield "pandas", [python, f"{HERE}/peers/keys.py"]
    if shutil.which("sqlite3"):
        yield "sqlite3", ["sqlite3", ":memory:", query(count)]


def main(px, rows="1000000"):
    rows = int(rows)
    print(f"{rows} rows\n")
    print("| keys | px, seconds | to half the rows | peer | its seconds | px / peer |")
    print("|--:|--:|--:|---|--:|--:|")
    for count in (2, 6):
        with tempfile.NamedTemporaryFile("w") as file:
            write(file, *document(rows, count))
            once = seconds([px, "run"], file.name)
            growth = once / measure(px, document(rows // 2, count))
            for name, command in peers(count):
                other = seconds(command, file.name)
                print(f"| {count} | {once:.3f} | {growth:.2f} | {name} | {other:.3f} | {once / other:.3f} |", flush=True)


main(*sys.argv[1:])
