#!/usr/bin/env python3
"""Prints a document of ROWS rows in the Int64 columns a, b and c, with one step of the kind NAME.

make_steps.py NAME ROWS > DOCUMENT ; NAME is arithmetic, when, filter, sort_by or is_in.
"""

import json
import sys

A, B, C = ({"col": name} for name in "abc")


def select(expression):
    return {"select": [{"alias": [expression, "made"]}]}


def step(name):
    if name == "arithmetic":
        return select({"bin": ["Plus", {"bin": ["Multiply", A, B]}, C]})
    if name == "when":
        return select({"when": [{"bin": ["Lt", A, B]}, A, B]})
    if name == "filter":
        return {"filter": {"bin": ["Lt", A, B]}}
    if name == "sort_by":
        flags = {"descending": [False, True], "nulls_last": [False, False]}
        return select({"sort_by": [C, [A, B], flags]})
    if name == "is_in":
        among = {"name": "among", "type": "Int64", "values": list(range(0, 3000, 3))}
        return select({"fn": ["IsIn", A, {"series": among}]})
    raise SystemExit(f"no step named {name}")


def main(name, rows):
    rows = range(int(rows))
    values = {
        "a": [row * 7919 % 1000 for row in rows],
        "b": [row * 104729 % 1009 for row in rows],
        "c": list(rows),
    }
    columns = [{"name": it, "type": "Int64", "values": values[it]} for it in values]
    print(json.dumps({"columns": columns, "steps": [step(name)]}, separators=(",", ":")))


main(*sys.argv[1:])
