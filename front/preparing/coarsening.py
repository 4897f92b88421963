"""Coarser public columns: numbers in bands, and texts of which some are joined under one name.

A band is named by the number that it begins with, and a column of bands says so in its name: `age_from` is 30 for whoever is 30 to 39. Secret
columns have neither.
"""

import bisect
import dataclasses
import functools

from .faults import Fault, counted, shown

BANDS_WORDS = "a width such as 10, or the numbers that bands begin with, as 0,18,30,45,65"
JOIN_WORDS = "A+B as AB, or * as other for all values that aren't named"
OTHERS = "*"
MOST_SIZE, MOST_BOUNDS = 10**12, 1000


@dataclasses.dataclass(frozen=True)
class Bands:
    """Bands of one width, or those that begin with given numbers, of which the last one has no end."""

    width: int = None
    starts: tuple = ()

    def start(self, number):
        """The number that the band of a number begins with, or a Fault below the first one."""
        if self.width:
            return int(number // self.width * self.width)
        place = bisect.bisect_right(self.starts, number)
        if not place:
            raise Fault(f"it is below the first band, which begins with {self.starts[0]:,}: give a lower number first")
        return self.starts[place - 1]

    def words(self):
        """What the bands are, for people."""
        return f"in bands of {self.width:,}" if self.width else "in bands from " + ", ".join(f"{start:,}" for start in self.starts)


@functools.lru_cache(maxsize=256)
def read_bands(text):
    """The bands of a choice. A Fault says how they are written."""
    words = [word.strip() for word in text.split(",")]
    if len(words) > MOST_BOUNDS or not all(is_whole(word) for word in words):
        raise Fault(f"{shown(text)} isn't bands: write {BANDS_WORDS}")
    numbers = tuple(map(int, words))
    if len(numbers) == 1:
        if numbers[0] < 1:
            raise Fault(f"{shown(text)} can't be the width of bands: it is 1 or more")
        return Bands(width=numbers[0])
    if any(low >= high for low, high in zip(numbers, numbers[1:])):
        raise Fault(f"{shown(text)} can't be where bands begin: each number has to be greater than the one before")
    return Bands(starts=numbers)


def is_whole(word):
    """Whether a word is a whole number that a table may have."""
    digits = word.removeprefix("-")
    return digits.isascii() and digits.isdigit() and len(digits) <= 13 and int(digits) <= MOST_SIZE


def read_join(text):
    """The name and the values of `A+B as AB`. A Fault says how that is written."""
    values, mark, name = text.rpartition(" as ")
    values = [value.strip() for value in values.split("+")]
    if not mark or not name.strip() or not all(values):
        raise Fault(f"{shown(text)} joins nothing: write {JOIN_WORDS}")
    return name.strip(), values


def join_fault(join):
    """Why a column's joined values can't be followed, or None. An object has a list of values for each name."""
    lists = list(join.values())
    if not all(isinstance(values, list) and values and all(isinstance(value, str) for value in values) for values in lists):
        return '"join" has to be an object with a list of texts for each name'
    if not all(join):
        return '"join" has a name without a letter'
    every = [value for values in lists for value in values]
    twice = next((value for value in every if every.count(value) > 1), None)
    return f'"join" has {shown(twice)} twice' if twice is not None else None


def coarsening_faults(column):
    """A sentence for each choice on bands and joined values of a column that can't be followed."""
    faults = []
    if column["bands"] is not None:
        if column["is"] != "number":
            return [f'"bands" are of public numbers, and it is {column["is"]}']
        faults += fault_of(lambda: read_bands(column["bands"]))
    if column["join"] is not None:
        if column["is"] != "text":
            return [f'"join" is for public texts, and it is {column["is"]}']
        faults += [join_fault(column["join"])] * bool(join_fault(column["join"]))
    return faults


def fault_of(call):
    """The sentence of the Fault that a call ends with, if it does, in a list."""
    try:
        call()
    except Fault as fault:
        return [str(fault)]
    return []


def joined(text, column, made):
    """The text, or the name that it is joined under; what was joined is added to what was made."""
    join = column.chosen["join"]
    if not join:
        return text
    for name, values in join.items():
        if text in values:
            made.append((column.name, text))
            return name
    for name, values in join.items():
        if OTHERS in values:
            made.append((column.name, OTHERS))
            return name
    if text in join:
        raise Fault(f"{shown(text)} is the name of joined values: name it among them too, or name them otherwise")
    return text


def coarsening_words(chosen, made):
    """What became of the cells of a column, by how many of each value were joined."""
    words = [f"{read_bands(chosen['bands']).words()}, each named by the number that it begins with"] if chosen["bands"] is not None else []
    for name, values in (chosen["join"] or {}).items():
        cells = sum(made[chosen["name"], value] for value in values)
        words.append(f"{counted(cells, 'cell')} joined as {shown(name)}")
    return words


def say_unused(columns, made):
    """Points out values that were to be joined and stand in no row."""
    for chosen in columns:
        if chosen["is"] == "text":
            never = [value for values in (chosen["join"] or {}).values() for value in values if value != OTHERS and not made[chosen["name"], value]]
            if never:
                print(
                    f"CAREFUL: {chosen['name']}: no row has {', '.join(map(shown, never[:20]))}, which was to be joined. Is it written as it stands"
                    " in the file?"
                )
