#!/usr/bin/env python3
"""Prints a Markdown table of kernels of px over ROWS rows, each beside pandas on the same values.

kernels.py PX [ROWS] ; PX is the path of the executable. A kernel's seconds are an eighth of those of a run whose step has it eight times, less those of a run whose step has not, each the best of three; pandas' are those of the call alone.
"""

import json
import subprocess
import sys
import tempfile
import time


def col(name):
    return {"col": name}


# How often a step has the kernel that is measured.
TIMES = 8


def count(expression, place=0):
    return {"alias": [{"agg": ["Count", expression, True]}, f"made{place}"]}


def select(expression):
    return [{"select": [count(expression, place) for place in range(TIMES)]}]


def named(expression):
    return [{"alias": [expression, f"made{place}"]} for place in range(TIMES)]


def group(aggregations):
    step = {"group": {"keys": [col("k")], "aggs": aggregations, "chunks": None}}
    return [step, {"select": [count(col("k"))]}]


def frame(rows, groups):
    return {
        "k": ("Int64", [row * 7919 % groups for row in range(rows)]),
        "a": ("Int64", [row * 7919 % 1000003 for row in range(rows)]),
        "b": ("Int64", [row * 104729 % 1009 for row in range(rows)]),
    }


def texts(rows):
    return {"t": ("String", [str(row * 7919 % 1000003) for row in range(rows)])}


def document(columns, steps):
    listed = [
        {"name": name, "type": kind, "values": values}
        for name, (kind, values) in columns.items()
    ]
    return json.dumps({"columns": listed, "steps": steps}, separators=(",", ":"))


def seconds_of(px, columns, steps):
    with tempfile.NamedTemporaryFile("w") as file:
        file.write(document(columns, steps))
        file.flush()
        best = None
        for _ in range(3):
            with open(file.name) as source:
                start = time.perf_counter()
                subprocess.run([px, "run"], stdin=source, stdout=subprocess.DEVNULL, check=True)
                taken = time.perf_counter() - start
            best = taken if best is None else min(best, taken)
    return best


def pandas_seconds(call):
    best = None
    for _ in range(3):
        start = time.perf_counter()
        call()
        taken = time.perf_counter() - start
        best = taken if best is None else min(best, taken)
    return best


AMONG = {"name": "among", "type": "Int64", "values": list(range(0, 3000, 3))}
PLAIN = {"descending": False, "nulls_last": False}
ROWWISE = {
    "compare": {"bin": ["Lt", col("a"), col("b")]},
    "multiply": {"bin": ["Multiply", col("a"), col("b")]},
    "cast": {"cast": [col("a"), "Int32", "NonStrict"]},
    "is_in": {"fn": ["IsIn", col("a"), {"series": AMONG}]},
    "sort numbers": {"sort": [col("a"), PLAIN]},
}
GROUPED = {
    "min": {"agg": ["Min", col("a")]},
    "max": {"agg": ["Max", col("a")]},
    "sum": {"agg": ["Sum", col("a")]},
    "first": {"agg": ["First", col("a")]},
    "last": {"agg": ["Last", col("a")]},
    "n_unique": {"agg": ["NUnique", col("b")]},
    "count": {"agg": ["Count", col("a"), False]},
    "list": col("a"),
}


def peers(data, kind):
    a, b = data["a"], data["b"]
    if kind == "rowwise":
        among = AMONG["values"]
        return {
            "compare": lambda: a < b,
            "multiply": lambda: a * b,
            "cast": lambda: a.astype("int32"),
            "is_in": lambda: a.isin(among),
            "sort numbers": lambda: a.sort_values(kind="stable"),
        }
    grouped = data.groupby("k", sort=False)
    return {
        "min": grouped["a"].min,
        "max": grouped["a"].max,
        "sum": grouped["a"].sum,
        "first": grouped["a"].first,
        "last": grouped["a"].last,
        "n_unique": grouped["b"].nunique,
        "count": grouped["a"].count,
        "list": lambda: grouped["a"].agg(list),
    }


def line(name, once, twice, peer):
    ratio = f"{once / peer:.2f}" if peer else "-"
    growth = f"{twice / once:.2f}" if once > 0.002 else "-"
    shown = f"{peer:.4f}" if peer else "not installed"
    print(f"| {name} | {once:.4f} | {growth} | {shown} | {ratio} |", flush=True)


def compare_all(px, pandas, title, kernels, columns_of, steps_of, bare, kind, rows):
    frames = [columns_of(rows), columns_of(2 * rows)]
    base = [seconds_of(px, columns, bare) for columns in frames]
    calls = {}
    if pandas:
        data = pandas.DataFrame({name: values for name, (_, values) in frames[0].items()})
        calls = peers(data, kind) if kind else {"sort texts": lambda: data["t"].sort_values(kind="stable")}
    for name, expression in kernels.items():
        taken = [seconds_of(px, columns, steps_of(expression)) for columns in frames]
        once, twice = (max(it - less, 0.0001) / TIMES for it, less in zip(taken, base))
        peer = pandas_seconds(calls[name]) if name in calls else None
        line(f"{name}{title}", once, twice, peer)


def main(px, rows="1000000"):
    rows = int(rows)
    try:
        import pandas
    except ImportError:
        pandas = None
    print(f"{rows} rows\n")
    print("| kernel | px, seconds | twice the rows | pandas, seconds | px / pandas |")
    print("|---|--:|--:|--:|--:|")
    compare_all(
        px, pandas, "", ROWWISE, lambda n: frame(n, 1000), select, select(col("a")), "rowwise", rows
    )
    words = {"sort texts": {"sort": [col("t"), PLAIN]}}
    compare_all(px, pandas, "", words, texts, select, select(col("t")), None, rows)
    for groups in (1000, rows):
        compare_all(
            px,
            pandas,
            f" of {groups} groups",
            GROUPED,
            lambda n: frame(n, groups if groups < rows else n),
            lambda expression: group(named(expression)),
            group([{"len": None}]),
            "grouped",
            rows,
        )


main(*sys.argv[1:])
