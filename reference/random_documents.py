"""Random documents of columns and steps, one JSON document a line.

`python3 random_documents.py SEED COUNT` prints COUNT documents, the same ones
for the same SEED. Expressions are made for a wanted type and length, so that
most documents answer a frame. Some documents get one planned mistake.
"""

from __future__ import annotations

import json
import sys
from dataclasses import dataclass, replace
from random import Random
from typing import Any, Callable, Optional

from reference import (INTEGER_BITS, RANGE_TYPES, bounds_of, can_cast, element_of, is_list, list_of,
                       read_expression)

Form = dict[str, Any]
Pair = tuple[float, Callable[["Goal"], Form]]

UNIT, HEIGHT, FREE = "unit", "height", "free"
INTEGERS = list(INTEGER_BITS)
FLAT_TYPES = [*INTEGERS, "Int64", "Int64", "Int64", "Boolean", "Boolean", "Boolean",
              "String", "String", "String", "Binary", "Null"]
SUM_SOURCES = {"Int64": ["Int8", "Int16", "UInt8", "UInt16", "Int64"], "Int32": ["Int32"],
               "UInt32": ["UInt32", "Boolean"], "UInt64": ["UInt64"]}
TEXTS = ["", "a", "b", "ab", "7", "-12", "300", "007", "-", "+5", " 1", "true", "é", 'q"\\\n',
         "99999999999999999999", "-129", "\u0001", "Z"]
NAMES = ["k", "g", "x", "y", "z", "s", "l", "a b", "", "é", "len", "literal"]
COMPARISONS = ["Eq", "NotEq", "Lt", "LtEq", "Gt", "GtEq", "EqValidity", "NotEqValidity"]
ARITHMETIC = ["Plus", "Minus", "Multiply", "Divide", "FloorDivide", "Modulus"]
BITWISE = ["And", "Or", "Xor"]
BYTE_LIMIT = 1400
MISTAKE_SHARE = 0.38
SHUFFLED_SHARE = 0.3
GROUP_MISTAKES = ["AggAboveImplode", "AggLiteral", "AggScalar", "ScalarOnGroups",
                  "WindowOnGroups"]
FRAME_MISTAKES = ["NoKey", "WindowLength"]
VALUE_MISTAKES = ["CastLost", "NullIndex", "OutOfBounds", "RangeBound", "ShapeMismatch",
                  "SliceArgument", "TooLong"]
TYPE_MISTAKES = ["ColumnNotFound", "ListKey", "RangeType", "SchemaMismatch", "SingleIndex",
                 "Types"]
EXPRESSION_MISTAKES = [*GROUP_MISTAKES, *FRAME_MISTAKES, "WindowLength", *VALUE_MISTAKES,
                       *TYPE_MISTAKES]
MISTAKES = [*EXPRESSION_MISTAKES, "Duplicate", "Duplicate", "BadDocument"]


@dataclass(frozen=True)
class Goal:
    """A wanted expression: its type, its length, how deep it may be and where it stands."""

    data_type: str
    length: str
    depth: int
    on_groups: bool = False
    may_implode: bool = True

    def deeper(self, data_type: Optional[str] = None, length: Optional[str] = None) -> Goal:
        return replace(self, depth=self.depth - 1, data_type=data_type or self.data_type,
                       length=length or self.length)


def literal(data_type: str, value: Any) -> Form:
    return {"lit": {"type": data_type, "value": value}}


def null_of(data_type: str) -> Form:
    """A null unit of any type."""
    return {"cast": [literal("Null", None), data_type, "Strict"]}


def name_of(form: Form) -> str:
    return read_expression(form).name()


class DocumentMaker:
    """Makes one document after another."""

    def __init__(self, random: Random) -> None:
        self.random = random
        self.columns: dict[str, str] = {}
        self.height: Optional[int] = 0
        self.mistake: Optional[str] = None

    # Choices

    def chance(self, share: float) -> bool:
        return self.random.random() < share

    def truth(self) -> bool:
        return self.chance(0.5)

    def pick(self, pairs: list[Pair]) -> Callable[[Goal], Form]:
        return self.random.choices([maker for _, maker in pairs],
                                   [weight for weight, _ in pairs])[0]

    def new_type(self) -> str:
        data_type = self.random.choice(FLAT_TYPES)
        while self.chance(0.17):
            data_type = list_of(data_type)
        return data_type

    def some_type(self, with_lists: bool = True) -> str:
        """A type that often stands among the columns."""
        types = [data_type for data_type in self.columns.values()
                 if with_lists or not is_list(data_type)]
        if types and self.chance(0.85):
            return self.random.choice(types)
        return self.random.choice(["Boolean", "Int64", "UInt32", "String", "Int8", "UInt64"])

    def value(self, data_type: str, null_share: float = 0.2) -> Any:
        if data_type == "Null" or self.chance(null_share):
            return None
        if is_list(data_type):
            count = self.random.choice([0, 1, 1, 2, 2, 3])
            return [self.value(element_of(data_type)) for _ in range(count)]
        if data_type == "Boolean":
            return self.truth()
        if data_type == "String":
            return self.random.choice(TEXTS)
        if data_type == "Binary":
            return self.random.choice(["", "00", "00ff", "6869", "ff", "ff00"])
        least, greatest = bounds_of(data_type)
        if self.chance(0.2):
            return self.random.choice([least, greatest, least + 1, greatest - 1])
        if self.chance(0.1):
            return self.random.randint(least, greatest)
        return max(least, self.random.randint(-3, 5))

    def values(self, data_type: str, count: int) -> list[Any]:
        """Values of the type, often repeated ones."""
        if self.truth():
            return [self.value(data_type) for _ in range(count)]
        pool = [self.value(data_type) for _ in range(self.random.randint(1, 3))]
        return [self.random.choice(pool) for _ in range(count)]

    def options(self) -> Form:
        return {"descending": self.truth(), "nulls_last": self.truth()}

    # Expressions by their goal

    def expression(self, goal: Goal) -> Form:
        """An expression that meets the goal, or the planned mistake."""
        if self.mistake and self.chance(0.2):
            mistaken = self.mistaken(goal)
            if mistaken is not None:
                return mistaken
        if goal.depth <= 0 or self.chance(0.15):
            return self.pick(self.leaf_makers(goal))(goal)
        return self.pick(self.node_makers(goal))(goal)

    def leaf_makers(self, goal: Goal) -> list[Pair]:
        if goal.length == UNIT:
            if is_list(goal.data_type):
                return [(1, lambda goal: null_of(goal.data_type)), (2, self.first_value)]
            pairs: list[Pair] = [(6, self.scalar), (0.5, lambda goal: null_of(goal.data_type))]
            return pairs + [(4, lambda goal: {"len": None})] * (goal.data_type == "UInt32")
        has_column = goal.data_type in self.columns.values()
        pairs = [(12, self.column) if has_column else (1.5, self.converted)]
        if goal.length == FREE and self.chance(self.literal_share(goal)):
            pairs.append((2, self.series))
            pairs += [(4, self.range)] * (goal.data_type in RANGE_TYPES)
        if goal.length == HEIGHT and not goal.on_groups and self.height is not None:
            pairs.append((0.4, self.series))
        return pairs

    def literal_share(self, goal: Goal) -> float:
        """How often rows may be literal: on groups seldom, below a reduction hardly ever."""
        if not goal.on_groups:
            return 1
        return 0.15 if goal.may_implode else 0.01

    def node_makers(self, goal: Goal) -> list[Pair]:
        data_type = goal.data_type
        pairs: list[Pair] = [(1, self.alias), (1.5, self.ternary), (1.2, self.cast)]
        if data_type == "Boolean":
            pairs += [(6, self.binary), (7, self.truth_function)]
        if data_type in INTEGERS or data_type == "String":
            pairs.append((4, self.binary))
        if goal.length == UNIT:
            pairs += [(6, self.reduction), (1, self.gather)]
            return pairs + [(12, self.count)] * (data_type == "UInt32")
        pairs += [(2, self.row_function), (1, self.gather), (1, self.sort_by)]
        pairs += [(1.5, self.sort)] * (not is_list(data_type))
        pairs += [(4, self.window)] * (not goal.on_groups)
        if goal.length == FREE:
            pairs += [(4, self.filter), (4, self.slice), (2, self.explode)]
            pairs += [(8, self.implode)] * (is_list(data_type) and goal.may_implode)
        return pairs

    def beside(self, goal: Goal, types: list[str]) -> list[Form]:
        """Operands that stand row beside row and together have the goal's length."""
        length = goal.length
        if length == FREE and self.truth():
            length = HEIGHT
        other = UNIT if length == FREE else length
        lengths = [self.random.choice([UNIT, other]) for _ in types]
        is_meeting = length == UNIT or self.chance(0.99)
        lengths[self.random.randrange(len(types))] = length if is_meeting else FREE
        return [self.expression(goal.deeper(data_type, own_length))
                for data_type, own_length in zip(types, lengths)]

    def rows(self, goal: Goal, data_type: Optional[str] = None) -> Form:
        """The input of a node that takes a list; now and then a unit."""
        if goal.length != HEIGHT and self.chance(0.06):
            if not goal.on_groups:
                return self.expression(goal.deeper(data_type, UNIT))
            if goal.may_implode and not is_list(data_type or goal.data_type):
                return self.scalar(goal.deeper(data_type, UNIT))
        length = goal.length if goal.length != UNIT else self.random.choice([HEIGHT, FREE])
        return self.expression(goal.deeper(data_type, length))

    def reduced(self, goal: Goal, data_type: str) -> Form:
        """The input of a reduction."""
        length = self.random.choice([HEIGHT, FREE, FREE])
        inner = replace(goal, length=length, may_implode=not goal.on_groups)
        if not goal.on_groups and self.chance(0.08):
            inner = replace(inner, length=UNIT)
        return self.expression(inner.deeper(data_type))

    def column(self, goal: Goal) -> Form:
        return {"col": self.random.choice([name for name, data_type in self.columns.items()
                                           if data_type == goal.data_type])}

    def scalar(self, goal: Goal) -> Form:
        return literal(goal.data_type, self.value(goal.data_type, 0))

    def series(self, goal: Goal) -> Form:
        count = self.height if goal.length == HEIGHT else self.random.randint(0, 4)
        return {"series": {"name": self.random.choice(NAMES), "type": goal.data_type,
                           "values": self.values(goal.data_type, count or 0)}}

    def range(self, goal: Goal) -> Form:
        low = self.random.randint(0 if goal.data_type == "UInt32" else -2, 2)
        high = max(low + self.random.randint(-1, 4), 0)
        return {"range": {"low": low, "high": high, "type": goal.data_type}}

    def first_value(self, goal: Goal) -> Form:
        inner = replace(goal, length=HEIGHT, may_implode=False)
        return {"agg": ["First", self.expression(inner.deeper())]}

    def converted(self, goal: Goal) -> Form:
        """Rows of a type that no column has, made from another column."""
        if not self.columns:
            return {"series": {"name": "e", "type": goal.data_type, "values": []}}
        sources = [name for name, data_type in self.columns.items()
                   if data_type in self.cast_sources(goal.data_type)]
        if sources:
            mode = self.random.choice(["NonStrict", "Overflowing"])
            return {"cast": [{"col": self.random.choice(sources)}, goal.data_type, mode]}
        name = self.random.choice(list(self.columns))
        units = [null_of(goal.data_type)] * 2
        if not is_list(goal.data_type):
            units = [self.scalar(goal), self.scalar(goal)]
        return {"when": [{"fn": ["IsNull", {"col": name}]}, *units]}

    def alias(self, goal: Goal) -> Form:
        return {"alias": [self.expression(goal.deeper()), self.random.choice(NAMES)]}

    def binary(self, goal: Goal) -> Form:
        data_type, operators = goal.data_type, [*ARITHMETIC, *BITWISE]
        if data_type == "String":
            operators = ["Plus"]
        if data_type == "Boolean":
            operators = BITWISE
            if self.chance(0.75):
                data_type, operators = self.some_type(with_lists=False), COMPARISONS
            elif self.truth():
                data_type = self.random.choice(["Boolean", *INTEGERS])
                operators = ["LogicalAnd", "LogicalOr"]
        return {"bin": [self.random.choice(operators),
                        *self.beside(goal, [data_type, data_type])]}

    def ternary(self, goal: Goal) -> Form:
        return {"when": self.beside(goal, ["Boolean", goal.data_type, goal.data_type])}

    def cast_sources(self, target: str) -> list[str]:
        types = [target, "Null", "Boolean", "String", "String", *INTEGERS, *self.columns.values()]
        if is_list(target):
            types += [list_of(source) for source in self.cast_sources(element_of(target))]
        return [source for source in types if can_cast(source, target)]

    def cast(self, goal: Goal) -> Form:
        sources = self.cast_sources(goal.data_type)
        known = [source for source in sources if source in self.columns.values()]
        source = self.random.choice(known if known and self.chance(0.8) else sources)
        is_safe = source in {goal.data_type, "Null", "Boolean"} or goal.data_type in {
            "Boolean", "String", "Binary"}
        modes = ["Strict", "NonStrict", "Overflowing"]
        mode = self.random.choice(modes if is_safe or self.chance(0.2) else modes[1:])
        return {"cast": [self.expression(goal.deeper(source)), goal.data_type, mode]}

    def truth_function(self, goal: Goal) -> Form:
        name = self.random.choice(["IsNull", "IsNotNull", "Not", "IsBetween", "IsIn"])
        data_type = "Boolean" if name == "Not" else self.some_type(name in {"IsNull", "IsNotNull"})
        if name == "IsBetween":
            closed = self.random.choice(["Both", "Left", "Right", "None"])
            return {"fn": [name, closed, *self.beside(goal, [data_type] * 3)]}
        forms = [self.expression(goal.deeper(data_type))]
        if name == "IsIn":
            length = self.random.choice([UNIT, HEIGHT, FREE])
            forms.append(self.expression(goal.deeper(data_type, length)))
        return {"fn": [name, *forms]}

    def reduction(self, goal: Goal) -> Form:
        methods = ["First", "Last"]
        if not is_list(goal.data_type):
            methods += ["Min", "Max"]
        if goal.data_type in SUM_SOURCES:
            methods += ["Sum", "Sum"]
        method = self.random.choice(methods)
        sources = SUM_SOURCES[goal.data_type] if method == "Sum" else [goal.data_type]
        known = [source for source in sources if source in self.columns.values()]
        return {"agg": [method, self.reduced(goal, self.random.choice(known or sources))]}

    def count(self, goal: Goal) -> Form:
        kind = self.random.choice(["NUnique", "Count", "NullCount"])
        if kind == "NUnique":
            return {"agg": [kind, self.reduced(goal, self.some_type(with_lists=False))]}
        source = self.reduced(goal, self.some_type())
        return {"fn": [kind, source]} if kind == "NullCount" else {
            "agg": [kind, source, self.truth()]}

    def implode(self, goal: Goal) -> Form:
        inner = replace(goal, may_implode=not goal.on_groups)
        return {"agg": ["Implode", self.expression(inner.deeper(element_of(goal.data_type)))]}

    def row_function(self, goal: Goal) -> Form:
        names = ["Reverse", "Shift"] + ["DropNulls"] * 2 * (goal.length == FREE)
        name = self.random.choice(names)
        periods = [self.random.choice([-1, 1, 0, 2, -3, 2 ** 63 - 1, -(2 ** 63)])]
        return {"fn": [name, *periods * (name == "Shift"), self.rows(goal)]}

    def explode(self, goal: Goal) -> Form:
        return {"explode": self.rows(goal, list_of(goal.data_type))}

    def filter(self, goal: Goal) -> Form:
        mask = goal.deeper("Boolean", HEIGHT if self.chance(0.85) else UNIT)
        source = goal.deeper(length=HEIGHT if mask.length == HEIGHT else FREE)
        return {"filter": [self.expression(source), self.expression(mask)]}

    def slice(self, goal: Goal) -> Form:
        inner = replace(goal, may_implode=not goal.on_groups)
        arguments = [literal("Int64", self.random.randint(-3, 2)),
                     literal("UInt32", self.random.randint(0, 3))]
        if self.chance(0.2):
            arguments[0] = self.expression(inner.deeper(self.random.choice(INTEGERS), UNIT))
        if self.chance(0.35):
            arguments[1] = self.random.choice([
                literal("Null", None), {"len": None}, null_of("Int8"),
                self.expression(inner.deeper("UInt8", UNIT))])
        return {"slice": [self.rows(inner), *arguments]}

    def gather(self, goal: Goal) -> Form:
        """Rows by number: numbers below the length, or small ones."""
        source = self.rows(replace(goal, length=HEIGHT if self.chance(0.9) else FREE))
        if goal.length != HEIGHT and self.chance(0.4):
            index = literal(self.random.choice(["Int8", "Int64"]),
                            self.random.choice([0, 0, 0, -1, -1, 1]))
        else:
            index = self.expression(goal.deeper("UInt32"))
            if self.chance(0.92):
                index = {"bin": ["Modulus", index, {"len": None}]}
        return {"gather": [source, index, goal.length == UNIT]}

    def sort(self, goal: Goal) -> Form:
        return {"sort": [self.rows(goal), self.options()]}

    def sort_by(self, goal: Goal) -> Form:
        count = self.random.choice([0, 1, 1, 2, 3])
        length = HEIGHT if self.chance(0.85) and count else goal.length
        lengths = [UNIT if length == FREE or self.chance(0.1) else HEIGHT for _ in range(count)]
        keys = [self.expression(goal.deeper(self.some_type(with_lists=False), own_length))
                for own_length in lengths]
        flags = [[self.truth() for _ in range(self.random.choice([0, 1, count]))]
                 for _ in range(2)]
        return {"sort_by": [self.expression(goal.deeper(length=length)), keys,
                            {"descending": flags[0], "nulls_last": flags[1]}]}

    def window(self, goal: Goal) -> Form:
        mappings = ["GroupsToRows", "GroupsToRows", "Join", "Explode"]
        mapping = self.random.choice(mappings)
        function = replace(goal, on_groups=True, length=self.random.choice([UNIT, HEIGHT]))
        if mapping == "Explode" or self.chance(0.06):
            function = replace(function, length=goal.length)
        if mapping == "Join":
            function = replace(function, length=UNIT)
            if is_list(goal.data_type):
                function = replace(function, length=FREE, data_type=element_of(goal.data_type))
        order = None
        if self.truth():
            order = [self.key(goal), self.options()]
        keys = [self.key(goal) for _ in range(self.random.choice([1, 1, 1, 2, 3]))]
        return {"over": {"function": self.expression(function.deeper()), "keys": keys,
                         "order": order, "mapping": mapping}}

    def key(self, goal: Goal, data_type: str = "") -> Form:
        """A key or order key at the frame's height."""
        length = UNIT if self.chance(0.12) else HEIGHT
        depth = 0 if self.chance(0.6) else min(goal.depth - 1, 2)
        return self.expression(Goal(data_type or self.some_type(with_lists=False), length, depth))

    # Planned mistakes

    def mistaken(self, goal: Goal) -> Optional[Form]:
        """The planned mistake where it can stand, in an expression of the goal's type."""
        mistake = self.mistake
        if mistake not in EXPRESSION_MISTAKES:
            return None
        if mistake in (FRAME_MISTAKES if goal.on_groups else GROUP_MISTAKES):
            return None
        if mistake == "WindowLength" and goal.length == UNIT:
            return None
        self.mistake = None
        if self.chance(0.25):
            self.mistake = self.random.choice(EXPRESSION_MISTAKES)
        if mistake in GROUP_MISTAKES:
            return self.group_mistake(goal, mistake)
        if mistake in TYPE_MISTAKES:
            return self.type_mistake(goal, mistake)
        if mistake == "NoKey":
            return {"over": {"function": self.leaf(goal), "keys": [], "order": None,
                             "mapping": "GroupsToRows"}}
        wrong = self.value_mistake(goal, mistake)
        length = goal.length
        if mistake == "WindowLength" and length == FREE:
            length = HEIGHT
        return {"when": [{"fn": ["IsNull", wrong]}, self.expression(goal.deeper(length=length)),
                         self.expression(goal.deeper(length=UNIT))]}

    def leaf(self, goal: Goal, data_type: str = "", length: str = HEIGHT) -> Form:
        data_type = data_type or self.some_type()
        return self.expression(replace(goal, data_type=data_type, length=length, depth=0))

    def group_mistake(self, goal: Goal, mistake: str) -> Form:
        if mistake == "WindowOnGroups":
            return self.window(Goal(self.some_type(), HEIGHT, 1))
        method = self.random.choice(["First", "Count", "Implode"])
        flag = [self.truth()] * (method == "Count")
        if mistake == "AggAboveImplode":
            rows = {"explode": {"agg": ["Implode", self.leaf(goal)]}}
            number = literal("Int8", 1)
            return self.random.choice([
                {"agg": [method, rows, *flag]}, {"fn": ["NullCount", rows]},
                {"slice": [rows, number, number]}])
        if mistake == "AggLiteral":
            literals = [self.scalar(goal.deeper("Int64")), self.series(goal.deeper(length=FREE))]
            return {"agg": [method, self.random.choice(literals), *flag]}
        unit = {"agg": ["Last", self.leaf(goal)]}
        if mistake == "AggScalar":
            return {"agg": ["First", self.random.choice([unit, {"len": None}])]}
        return self.random.choice([
            {"fn": ["Reverse", unit]}, {"filter": [unit, literal("Boolean", True)]},
            {"gather": [unit, literal("Int8", 0), True]}, {"sort_by": [unit, [], {
                "descending": [], "nulls_last": []}]}, {"fn": ["NullCount", unit]}])

    def type_mistake(self, goal: Goal, mistake: str) -> Form:
        rows, number, text = self.leaf(goal), literal("Int64", 2), literal("String", "b")
        lists = self.leaf(goal, f"List({self.random.choice(['Int64', 'Boolean'])})")
        forms = {
            "ColumnNotFound": [{"col": "missing"}, {"col": 'no "such"'}],
            "ListKey": [{"sort": [lists, self.options()]}, {"bin": ["Eq", lists, lists]},
                        {"agg": [self.random.choice(["Min", "NUnique"]), lists]},
                        {"fn": ["IsIn", lists, lists]}],
            "RangeType": [{"range": {"low": 0, "high": 2, "type": self.random.choice(
                ["Int8", "UInt64", "Boolean", "List(Int64)"])}}],
            "SchemaMismatch": [{"filter": [rows, number]}, {"when": [text, rows, rows]}],
            "SingleIndex": [{"gather": [rows, self.leaf(goal, "UInt32"), True]}],
            "Types": [{"bin": ["Plus", number, text]}, {"fn": ["Not", number]},
                      {"agg": ["Sum", self.leaf(goal, "String")]}, {"explode": text},
                      {"slice": [rows, text, number]}, {"gather": [rows, text, False]},
                      {"cast": [text, "Boolean", "NonStrict"]},
                      {"when": [literal("Boolean", True), number, text]}],
        }
        return self.random.choice(forms[mistake])

    def value_mistake(self, goal: Goal, mistake: str) -> Form:
        """A unit at fault, or a window at fault."""
        rows, number = self.leaf(goal), literal("Int64", self.random.choice([0, 1, 99]))
        numbers = {"series": {"name": "n", "type": "Int64", "values": [1, None]}}
        if mistake == "CastLost":
            return {"cast": [literal("String", "x1"), self.random.choice(INTEGERS), "Strict"]}
        if mistake in {"NullIndex", "OutOfBounds"}:
            index = null_of("Int16") if mistake == "NullIndex" else literal("Int16", 77)
            return {"gather": [rows, index, True]}
        if mistake in {"RangeBound", "TooLong"}:
            low, high = (-1, 3) if mistake == "RangeBound" else (0, 2 ** 32)
            data_type = "UInt32" if mistake == "RangeBound" else "Int64"
            return {"fn": ["IsIn", literal(data_type, 1), {
                "range": {"low": low, "high": high, "type": data_type}}]}
        if mistake == "ShapeMismatch":
            mask = {"series": {"name": "m", "type": "Boolean", "values": [True] * 9}}
            return {"agg": ["First", {"filter": [rows, mask]}]}
        if mistake == "SliceArgument":
            arguments = self.random.choice([[literal("Null", None), number], [numbers, number],
                                            [number, literal("Int8", -1)], [number, numbers]])
            return {"agg": ["First", {"slice": [rows, *arguments]}]}
        function = self.random.choice([{"slice": [rows, number, literal("UInt8", 9)]},
                                       {"explode": self.leaf(goal, "List(Int64)")},
                                       {"fn": ["DropNulls", rows]}])
        return {"over": {"function": function, "keys": [self.key(goal)], "order": None,
                         "mapping": "GroupsToRows"}}

    # Steps and documents

    def goal(self, length: str, on_groups: bool = False) -> Goal:
        return Goal(self.some_type(), length, self.random.choice([1, 2, 2, 3, 3, 4]), on_groups)

    def named(self, goals: list[Goal], forms: list[Form], taken: dict[str, str]) -> list[Form]:
        """The forms under distinct names; the names and types are added to those taken."""
        results = []
        for goal, form in zip(goals, forms):
            if name_of(form) in taken or self.chance(0.5):
                fresh = next(f"c{number}" for number in range(9) if f"c{number}" not in taken)
                form = {"alias": [form, fresh]}
            is_rows = goal.on_groups and goal.length != UNIT
            taken[name_of(form)] = list_of(goal.data_type) if is_rows else goal.data_type
            results.append(form)
        return results

    def select_step(self) -> Form:
        count = self.random.choice([1, 1, 1, 2, 2, 3])
        lengths = [HEIGHT if self.chance(0.85) else UNIT for _ in range(count)]
        if self.chance(0.25):
            lengths = [FREE] + [UNIT] * (count - 1)
        goals = [self.goal(length) for length in lengths if not self.chance(0.01)]
        forms = [self.window(goal) if goal.length != UNIT and self.chance(0.2)
                 else self.expression(goal) for goal in goals]
        columns: dict[str, str] = {}
        forms = self.named(goals, forms, columns)
        self.columns = columns
        self.height = self.height if HEIGHT in lengths else None
        return {"select": forms}

    def filter_step(self) -> Form:
        goal = replace(self.goal(HEIGHT if self.chance(0.9) else UNIT), data_type="Boolean")
        use_window = goal.length == HEIGHT and self.chance(0.2)
        mask = self.window(goal) if use_window else self.expression(goal)
        self.height = None
        return {"filter": mask}

    def group_step(self) -> Form:
        key_count, count = self.random.choice([1, 1, 1, 2, 3]), self.random.choice([0, 1, 1, 2, 2])
        goals = [replace(self.goal(HEIGHT), data_type=self.some_type(with_lists=False))
                 for _ in range(key_count)]
        keys = [self.window(goal) if self.chance(0.12)
                else self.key(goal, goal.data_type) for goal in goals]
        agg_goals = [self.goal(self.random.choice([UNIT, UNIT, HEIGHT, FREE, FREE]), True)
                     for _ in range(count)]
        agg_goals = [replace(goal, data_type="UInt32") if self.chance(0.2) else goal
                     for goal in agg_goals]
        aggregations = [self.expression(goal) for goal in agg_goals]
        columns: dict[str, str] = {}
        keys = self.named(goals, keys, columns)
        aggregations = self.named(agg_goals, aggregations, columns)
        self.columns, self.height = columns, None
        return {"group": {"keys": keys, "aggs": aggregations, "chunks": None}}

    def with_mistake(self, step: Form) -> Form:
        """The step with the planned mistake at one of its expressions."""
        kind, body = next(iter(step.items()))
        if self.mistake == "NoKey" and kind == "group":
            return {kind: {**body, "keys": []}}
        goal = self.goal(HEIGHT, kind == "group" or self.mistake in GROUP_MISTAKES)
        forms = [body] if kind == "filter" else body if kind == "select" else body["aggs"]
        if self.mistake == "Duplicate" and kind != "filter":
            keys = body["keys"] if kind == "group" else []
            earlier = self.random.choice([*keys, *forms, {"alias": [{"len": None}, "d"]}])
            forms.append({"alias": [literal("Int8", 1), name_of(earlier)]})
            return step
        form = self.mistaken(goal)
        if form is None:
            return step
        if kind != "group" and goal.on_groups:
            form = {"over": {"function": form, "keys": [self.key(goal)], "order": None,
                             "mapping": "Join"}}
        if kind == "filter":
            return {kind: {"fn": ["IsNull", form]}}
        forms.insert(self.random.randint(0, len(forms)), {"alias": [form, "m"]})
        return step

    def document(self) -> Form:
        """Columns and one to three steps; the columns are tracked from step to step."""
        self.height = self.random.choice([0, 1, 2, 3, 3, 4, 4, 5, 5, 6, 6, 7, 8, 8])
        names = self.random.sample(NAMES[:10], self.random.choice([1, 2, 2, 3, 3, 4]))
        self.columns = {name: self.new_type() for name in names}
        columns = [{"name": name, "type": data_type, "values": self.values(data_type, self.height)}
                   for name, data_type in self.columns.items()]
        makers = [self.select_step] * 5 + [self.filter_step] * 2 + [self.group_step] * 4
        steps = []
        for _ in range(self.random.choice([1, 1, 1, 2, 2, 3])):
            before = self.columns, self.height
            steps.append(self.random.choice(makers)())
        self.columns, self.height = before
        return {"columns": columns, "steps": [*steps[:-1], self.with_mistake(steps[-1])]}

    def text(self) -> str:
        """The text of a document, short enough."""
        while True:
            plan = self.random.choice(MISTAKES) if self.chance(MISTAKE_SHARE) else None
            self.mistake = plan
            document = self.document()
            if self.chance(SHUFFLED_SHARE):
                document = self.shuffled(document)
            text = json.dumps(document, ensure_ascii=self.truth(), separators=(",", ":"))
            if len(text) < BYTE_LIMIT:
                return self.corrupted(text) if plan == "BadDocument" else text

    def shuffled(self, form: Any) -> Any:
        """The same with the members of its objects in another order."""
        if isinstance(form, list):
            return [self.shuffled(item) for item in form]
        if isinstance(form, dict):
            members = self.random.sample(list(form.items()), len(form))
            return {key: self.shuffled(value) for key, value in members}
        return form

    def corrupted(self, text: str) -> str:
        """A text that is no document."""
        place = self.random.randrange(len(text))
        changes = [("", text[:place]), ('"type":"', '"type":"List('), ('"steps":[', '"steps":[{},'),
                   ('"values":[', '"values":[1.5,'), ('"values":[', '"values":[-0,'),
                   ("null", "nil"), ('{"col":', '{"column":'), ("}", ',"more":1}'),
                   ('"value":', '"value":[],"other":'), ('"columns":[', '"columns":[1,'),
                   ('"chunks":null', '"chunks":[-1]'), ("]", "]]"),
                   ("", '{"columns":[],"steps":[' + '{"select":[]},' * 64 + '{"select":[]}]}')]
        old, new = self.random.choice([change for change in changes if change[0] in text])
        return text.replace(old, new, 1) if old else new


def main() -> None:
    seed, count = int(sys.argv[1]), int(sys.argv[2])
    maker = DocumentMaker(Random(seed))
    for _ in range(count):
        sys.stdout.buffer.write(maker.text().encode() + b"\n")


if __name__ == "__main__":
    main()
