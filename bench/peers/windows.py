"""Prints for each row what a window of this name makes of the columns k and x.

python3 windows.py NAME < DOCUMENT
"""

import json
import sys

import pandas

document = json.load(sys.stdin)
frame = pandas.DataFrame({it["name"]: it["values"] for it in document["columns"]})
name = sys.argv[1]
groups = frame.groupby("k", sort=False)
if name == "sum":
    made = groups["x"].transform("sum")
elif name == "order":
    made = frame.sort_values("x", kind="stable").groupby("k", sort=False)["x"].shift(1).reindex(frame.index)
else:
    first = groups.ngroup()
    made = frame["x"].iloc[first.argsort(kind="stable")]
text = made.astype("Int64").astype("string").fillna("null")
sys.stdout.write("[" + "]\n[".join(text) + "]\n")
