"""Counts what the documents on standard input hold and what they answer.

Each line names one thing, the number of documents that have it, and the number
of those that answer a frame.
"""

from __future__ import annotations

import json
import sys
from collections import Counter
from typing import Any, Iterator

from reference import answer, read_expression

LEAVES = {"col", "lit", "range", "series", "len"}


def expressions_of(form: Any) -> Iterator[tuple[str, Any]]:
    """Each expression in the form, as its kind and its body."""
    if isinstance(form, list):
        for part in form:
            yield from expressions_of(part)
    elif isinstance(form, dict):
        for kind, body in form.items():
            yield kind, body
            if kind not in LEAVES:
                yield from expressions_of(body)


def depth_of(form: Any) -> int:
    """The number of expressions on the longest way down."""
    if isinstance(form, list):
        return max(map(depth_of, form), default=0)
    if not isinstance(form, dict):
        return 0
    if form.keys() & {"function", "keys"}:
        return max(map(depth_of, form.values()))
    return max((1 + (0 if kind in LEAVES else depth_of(body)) for kind, body in form.items()),
               default=0)


def window_things(body: Any) -> Iterator[str]:
    """What is to be said of one window."""
    yield f"window mapping {body['mapping']}"
    yield f"window keys {min(len(body['keys']), 3)}"
    if any(read_expression(key).is_unit() for key in body["keys"]):
        yield "window with a unit key"
    if body["order"]:
        flags = body["order"][1]
        yield f"window order descending {flags['descending']}, nulls last {flags['nulls_last']}"
    inner = expressions_of([body["keys"], (body["order"] or [None])[0]])
    if any(kind == "over" for kind, _ in inner):
        yield "window within a key or order key of a window"


def expression_things(kind: str, body: Any) -> Iterator[str]:
    if kind not in {"function", "keys", "order", "mapping", "descending", "nulls_last"}:
        yield f"form {kind}"
    if kind == "fn":
        yield f"function {body[0]}" + (f" {body[1]}" if body[0] == "IsBetween" else "")
    if kind == "agg":
        yield f"aggregation {body[0]}" + (f" {body[2]}" if body[0] == "Count" else "")
    if kind == "bin":
        yield f"operator {body[0]}"
    if kind == "cast":
        yield f"cast {body[2]}"
    if kind == "gather":
        yield f"gather returns scalar {body[2]}"
    if kind == "sort_by":
        yield f"sort_by keys {min(len(body[1]), 3)}"
    if kind == "over":
        yield from window_things(body)


def things_of(document: Any) -> Iterator[str]:
    """Everything that is counted of one document."""
    columns, steps = document["columns"], document["steps"]
    yield f"steps {len(steps)}"
    yield f"height {len(columns[0]['values']) if columns else 0}"
    for column in columns:
        yield f"column type {column['type'] if column['type'][:4] != 'List' else 'List'}"
    for step in steps:
        kind, body = next(iter(step.items()))
        yield f"step {kind}"
        forms = body if kind != "group" else [*body["keys"], *body["aggs"]]
        yield f"depth {min(depth_of(forms), 8)}"
        expressions = list(expressions_of(forms))
        for expression in expressions:
            yield from expression_things(*expression)
        if kind == "filter" and any(name == "over" for name, _ in expressions):
            yield "window in a filter step"
        if kind == "group" and any(name == "over" for name, _ in expressions_of(body["keys"])):
            yield "window in a key of a group step"
        windows = sum(name == "over" for name, _ in expressions)
        if kind == "select" and windows and len(forms) > 1:
            yield "window beside other columns of a select step"


def main() -> None:
    answers: Counter[str] = Counter()
    everywhere: Counter[str] = Counter()
    in_frames: Counter[str] = Counter()
    for line in sys.stdin.buffer:
        status, text = answer(line.removesuffix(b"\n"))
        label = text[len("error: "):-1] if status else "frame"
        label = label.split('("')[0]
        answers[f"status {status}: {label}"] += 1
        if status == 3:
            continue
        things = set(things_of(json.loads(line)))
        everywhere.update(things)
        in_frames.update(things if status == 0 else ())
    print("answers")
    for label, count in sorted(answers.items()):
        print(f"  {label}: {count}")
    print("documents that have it, and those of them that answer a frame")
    for thing, count in sorted(everywhere.items()):
        print(f"  {thing}: {count}, {in_frames[thing]}")


if __name__ == "__main__":
    main()
