"""Prints [key,sum,rows] for each value of k, in order of first appearance.

python3 sum_and_length.py < DOCUMENT
"""

import json
import sys

import pandas

document = json.load(sys.stdin)
frame = pandas.DataFrame({it["name"]: it["values"] for it in document["columns"]})
groups = frame.groupby("k", sort=False)["x"].agg(["sum", "size"])
for group in groups.itertuples():
    print(json.dumps(list(group), separators=(",", ":")))
