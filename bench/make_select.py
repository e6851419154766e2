#!/usr/bin/env python3
"""Prints a document of ROWS rows in ten Int64 columns of so many digits; its step selects each of them under another name, and two literals.

make_select.py ROWS [DIGITS] > DOCUMENT
"""

import json
import sys

SCRAMBLE = 2654435761  # a prime: the values of a column come in no order


def main(rows, digits="1"):
    rows, digits = range(int(rows)), int(digits)
    least = 10 ** (digits - 1) if digits > 1 else 0
    names = [f"c{place}" for place in range(10)]
    columns = [
        {
            "name": name,
            "type": "Int64",
            "values": [least + (row * 7 + place) * SCRAMBLE % (10**digits - least) for row in rows],
        }
        for place, name in enumerate(names)
    ]
    selected = [{"alias": [{"col": name}, name + "_again"]} for name in names]
    literals = [
        {"alias": [{"lit": {"type": "Int64", "value": 5}}, "five"]},
        {"alias": [{"lit": {"type": "String", "value": "text"}}, "text"]},
    ]
    document = {"columns": columns, "steps": [{"select": selected + literals}]}
    print(json.dumps(document, separators=(",", ":")))


main(*sys.argv[1:])
