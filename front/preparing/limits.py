"""The limits that a schema states of its columns of sums, so that numbers stay open within a range that people know: a width, and a reach.

The program has to know each of them: an older one takes the schema for a faulty one.
"""

from typing import NamedTuple

from .largest import MOST_ROWS


class Limit(NamedTuple):
    """The number that is written unless another one is chosen, the numbers that it may be, and what it does and costs, in words."""

    usual: int
    least: int
    most: int
    words: str


LIMITS = {
    "width": Limit(
        4,
        1,
        2**56,
        "a sum is denied if numbers would then be open only by changes of which one person's is far greater than another's. Of tables"
        " that were tried it takes a report 1 to 3 of 100 totals, conditions by chance 10 to 21, and drill-downs and intervals next to"
        " none",
    ),
    "reach": Limit(
        50,
        2,
        MOST_ROWS,
        "a sum is denied if somebody's number would then be open only by a change that alters more people's than that. Of tables that"
        " were tried it takes a report at most one total of 184 besides what the width takes, conditions by chance 3 to 9 of 100, and"
        " drill-downs and intervals none",
    ),
}


def fill_in(choices):
    """Puts the usual number wherever a file of choices doesn't say which."""
    for key, limit in LIMITS.items():
        choices.setdefault(key, limit.usual)


def limit_faults(choices):
    """A sentence for each limit that can't be followed."""
    return [
        f"\"{key}\" can't be {choices[key]}: it is {limit.least:,} to {limit.most:,}, or null for no such limit"
        for key, limit in LIMITS.items()
        if choices[key] is not None and not limit.least <= choices[key] <= limit.most
    ]


def stated(choices):
    """The limits that the schema states, by key."""
    return {key: choices[key] for key in LIMITS if choices[key] is not None}


def say_choice():
    """What the limits are unless others are chosen, and how that is done."""
    for key, limit in LIMITS.items():
        print(f'"{key}" is {limit.usual} unless you choose another {key}, from {limit.least} on, or {key}=none: {limit.words}.')


def say_limits(limits):
    """What the limits of a schema do and cost."""
    for key, number in limits.items():
        print(f"{key} {number:,}: {LIMITS[key].words}")
