"""Reads a line as a person types it: `sum salary where age >= 41`, `totals salary by team`."""

import dataclasses
import difflib
import re

from planning.columns import within

ASKS = {
    "count": "count",
    "sum": "sum",
    "total": "sum",
    "avg": "avg",
    "average": "avg",
    "mean": "avg",
    "max": "max",
    "maximum": "max",
    "greatest": "max",
    "min": "min",
    "minimum": "min",
    "least": "min",
}
FIRST = ("would", "why", "near", "csv")
SECRET = {"sum": ("sum", "avg"), "max": ("max",), "min": ("min",)}
COUNT = "count"                     # the kind of the column with how many people a row stands for


class Unclear(Exception):
    """Why a line isn't a question, in a sentence."""


@dataclasses.dataclass(frozen=True)
class Question:
    """What is asked, of which column and rows, for each value of which columns, and whether something else than its answer is wanted:
    the verdict, its reason, or what is near; `csv` if the answers are to be CSV."""

    ask: str
    column: str = None
    where: str = "all"
    by: tuple = ()
    would: bool = False
    why: bool = False
    near: bool = False
    csv: bool = False

    def line(self):
        """The question as the program reads it."""
        keys = {"ask": self.ask, "column": self.column, "where": self.where}
        return {key: value for key, value in keys.items() if value is not None}

    def typed(self):
        """The question of one group as a person types it."""
        words = ["why"] * self.why + [self.ask] + [self.column] * (self.column is not None)
        return " ".join(words + ([] if self.where == "all" else ["where", self.where]))

    def over(self, part):
        """The same question over that part of its rows for which a condition holds."""
        return Question(self.ask, self.column, within(self.where, part))


def parse(text, kinds):
    """The question of a line. `kinds` has the kind of each column by name."""
    parts = re.split(r"\s+where(?=\s|$)", " " + text.strip(), maxsplit=1, flags=re.IGNORECASE)
    words, where = parts[0].split(), parts[1].strip() if len(parts) == 2 else "all"
    first = words[0] if words[:1] and words[0] in FIRST else None
    words = words[first is not None :]
    totals = words[:1] == ["totals"]
    ask = "sum" if totals else ask_named(words[0] if words else "")
    rest, by = split_by(words[1:])
    if len(by) > 2:
        raise Unclear("by takes one column, or two for a table: write it as by COLUMN, COLUMN")
    if (totals and not by) or len(rest) != (0 if ask == "count" else 1):
        raise Unclear(usage(ask, totals))
    if by and first in ("why", "near"):
        raise Unclear(f"{first} is asked of one question: write the condition of the group into it")
    if first == "csv" and not by:
        raise Unclear("csv is of groups: write it as csv totals COLUMN by COLUMN")
    for name in by:
        need_public(name, kinds)
    for column in rest:
        need_asked(ask, column, kinds)
    return Question(ask, rest[0] if rest else None, where, by, **({first: True} if first else {}))


def split_by(words):
    """The words before `by`, and the columns after it, which commas or `and` stand between."""
    if "by" not in words[:-1]:
        return words, ()
    place = words.index("by")
    return words[:place], tuple(re.split(r"\s*,\s*|\s+and\s+", " ".join(words[place + 1 :])))


def ask_named(word):
    """What a word asks for; another one is Unclear, with the nearest that is known."""
    if word == "median":
        raise Unclear(f"{word} can't be asked: there are count, sum, avg, max and min")
    if word not in ASKS:
        near = difflib.get_close_matches(word, ASKS, 1)
        raise Unclear(
            f"{word!r} isn't something to ask" + (f": did you mean {near[0]}?" if near else "; help shows what is")
        )
    return ASKS[word]


def usage(ask, totals):
    """How a question of this kind is written."""
    if totals:
        return "write it as: totals COLUMN by COLUMN where CONDITION, or by COLUMN, COLUMN"
    return f"write it as: {ask}{'' if ask == 'count' else ' COLUMN'} where CONDITION, or by COLUMN, or by COLUMN, COLUMN" + (
        "; a count has no column" if ask == "count" else ""
    )


def need_public(name, kinds):
    """Values are known of public columns alone."""
    if name not in kinds:
        raise Unclear(no_column(name, kinds))
    if kinds[name] in SECRET:
        raise Unclear(f"{name} is secret: groups are made by a public column, one of {', '.join(public_names(kinds))}")
    if kinds[name] == COUNT:
        raise Unclear(f"{name} is how many people a row stands for: groups are made by one of {', '.join(public_names(kinds))}")


def need_asked(ask, name, kinds):
    """A column that can be asked for this. The program would refuse another one too, in fewer words."""
    if name not in kinds:
        raise Unclear(no_column(name, kinds))
    if kinds[name] == COUNT:
        raise Unclear(f"{name} is how many people a row stands for: ask count, which adds it up")
    if kinds[name] not in SECRET:
        raise Unclear(
            f"{name} is public, and only secret columns are asked for numbers. Its values stand in the public table"
        )
    if ask not in SECRET[kinds[name]]:
        raise Unclear(f"{name} is kept for {' and '.join(SECRET[kinds[name]])}, so it can't be asked for {ask}")


def no_column(name, kinds):
    """That there is no such column, with the nearest one or all of them."""
    near = difflib.get_close_matches(name.lower(), [column.lower() for column in kinds], 1)
    meant = [column for column in kinds if near and column.lower() == near[0]]
    return f"there is no column {name!r}" + (
        f": did you mean {meant[0]}?" if meant else f"; there are {', '.join(kinds)}"
    )


def public_names(kinds):
    return [name for name, kind in kinds.items() if kind not in SECRET and kind != COUNT]
