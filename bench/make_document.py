#!/usr/bin/env python3
"""Prints a document of ROWS rows with KEYS keys in no order; its step sums x and counts the rows for each key k.

make_document.py ROWS KEYS [Int64|String] > DOCUMENT : the type is that of the keys.
"""

import json
import sys

SCRAMBLE = 2654435761  # a prime: each stretch of KEYS rows has each key once


def column(name, dtype, values):
    return {"name": name, "type": dtype, "values": list(values)}


def main(rows, keys, dtype="Int64"):
    rows, keys = int(rows), int(keys)
    key = {"Int64": int, "String": "key {}".format}[dtype]
    aggregates = [{"agg": ["Sum", {"col": "x"}]}, {"len": None}]
    step = {"keys": [{"col": "k"}], "aggs": aggregates, "chunks": None}
    columns = [
        column("k", dtype, (key(row * SCRAMBLE % keys) for row in range(rows))),
        column("x", "Int64", range(rows)),
    ]
    document = {"columns": columns, "steps": [{"group": step}]}
    print(json.dumps(document, separators=(",", ":")))


main(*sys.argv[1:])
