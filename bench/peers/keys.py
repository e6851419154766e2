"""Prints the keys, the sum of x and the number of rows of each group, in order of first appearance; x is the last column.

python3 keys.py < DOCUMENT
"""

import json
import sys

import pandas

document = json.load(sys.stdin)
frame = pandas.DataFrame({it["name"]: it["values"] for it in document["columns"]})
keys = [it["name"] for it in document["columns"][:-1]]
groups = frame.groupby(keys, sort=False)["x"].agg(["sum", "size"]).reset_index()
for group in groups.itertuples(index=False):
    print(json.dumps(list(group), separators=(",", ":")))
