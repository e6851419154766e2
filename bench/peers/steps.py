"""Prints the rows that a step of this name makes of the columns a, b and c.

python3 steps.py STEP < DOCUMENT
"""

import json
import sys

import pandas

document = json.load(sys.stdin)
frame = pandas.DataFrame({it["name"]: it["values"] for it in document["columns"]})
step = sys.argv[1]
if step == "arithmetic":
    made = (frame.a * frame.b + frame.c).to_frame()
elif step == "when":
    made = frame.a.where(frame.a < frame.b, frame.b).to_frame()
elif step == "filter":
    made = frame[frame.a < frame.b]
elif step == "sort_by":
    made = frame.sort_values(["a", "b"], ascending=[True, False], kind="stable")[["c"]]
else:
    made = frame.a.isin(range(0, 3000, 3)).to_frame()
dumps = json.JSONEncoder(separators=(",", ":")).encode
sys.stdout.writelines(dumps(row) + "\n" for row in made.values.tolist())
