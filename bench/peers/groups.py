"""Prints for each group, in order of first appearance, what a group step of this name makes of the columns k, a and b.

python3 groups.py STEP < DOCUMENT
"""

import json
import sys

import pandas

document = json.load(sys.stdin)
frame = pandas.DataFrame({it["name"]: it["values"] for it in document["columns"]})
step = sys.argv[1]
if step == "ten":
    frame["product"] = frame.a * frame.b
    frame["less"] = frame.a.where(frame.a < frame.b, 0)
    groups = frame.groupby("k", sort=False)
    a = groups["a"]
    made = pandas.concat(
        [
            a.sum(),
            a.min(),
            a.max(),
            a.first(),
            a.last(),
            groups["b"].nunique(),
            a.count(),
            groups.size(),
            groups["product"].sum(),
            groups["less"].sum(),
        ],
        axis=1,
    )
    rows = made.reset_index().values.tolist()
elif step == "slice":
    least = frame.sort_values("a", kind="stable").groupby("k", sort=False)["a"].agg(lambda it: list(it[:3]))
    rows = [[key, values] for key, values in least.items()]
else:
    lists = frame.groupby("k", sort=False)["a"].agg(list)
    rows = [[key, values] for key, values in lists.items()]
dumps = json.JSONEncoder(separators=(",", ":")).encode
sys.stdout.writelines(dumps(row) + "\n" for row in rows)
