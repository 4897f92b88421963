"""The parts of a condition that are joined by `and`: comparisons, and other conditions as they stand."""
import dataclasses
import operator

from preparing.conditions import COMPARISONS, Reader, read_condition

from .columns import literal


@dataclasses.dataclass(frozen=True)
class Part:
    """`name how values` if it is a comparison of a column; otherwise `text` alone, which may stand beside an `and`."""

    text: str
    name: str = None
    how: str = None
    values: tuple = ()

    def rows(self, columns):
        """The rows that it is over."""
        if self.name is None:
            return columns.rows_of(read_condition(self.text, columns.publics))
        compare = operator.contains if self.how == "in" else COMPARISONS[self.how]
        known = self.values if self.how == "in" else self.values[0]
        holds = (lambda value: value in known) if self.how == "in" else (lambda value: compare(value, known))
        rows = 0
        for value, those in columns.values(self.name).items():
            rows |= those if holds(value) else 0
        return rows


def comparison(name, how, *values):
    """The part that compares a column with values."""
    if how == "in" and len(values) == 1:
        how = "="
    right = literal(values[0]) if how != "in" else "(" + ", ".join(map(literal, values)) + ")"
    return Part(f"{name} {how} {right}", name, how, values)


def joined(parts):
    """The condition of some parts."""
    return " and ".join(part.text for part in parts) or "all"


class PartReader(Reader):
    """Reads a condition into its parts. `before` is the end of the token before the one that is known."""

    def advance(self):
        self.before = self.end
        super().advance()

    def parts(self):
        """The parts of what is read, or None if an `or` joins it."""
        found = self.joined("and", self.one)
        whole = self.kind != "or"
        while self.kind == "or":
            self.advance()
            self.joined("and", self.one)
        return [part for parts in found for part in parts] if whole else None

    def one(self):
        """The parts of a unit: those in its brackets, none of `all`, and otherwise itself."""
        start = self.place
        if self.kind == "all":
            self.advance()
            return []
        if self.kind == "(":
            inside = self.deeper(self.parts)
            self.take(")")
            if inside is not None:
                return inside
        elif self.kind == "not":
            self.unit()
        else:
            return [self.one_comparison()]
        return [Part(self.text[start:self.before])]

    def one_comparison(self):
        """A comparison of a column; the base class says what one is."""
        start, name = self.place, self.token
        self.comparison()
        tokens = PartReader.words(self.text[start:self.before], self.kinds)
        return comparison(name, *tokens)

    @staticmethod
    def words(text, kinds):
        """The mark and the values of a comparison's text."""
        reader = Reader(text, kinds)
        kind = kinds[reader.token]
        reader.advance()
        if reader.kind == "in":
            return "in", *sorted(reader.values(kind))
        how = reader.token
        reader.advance()
        return how, reader.literal(kind)


def parts_of(where, publics):
    """The parts of a condition, or Wrong."""
    reader = PartReader(where, publics)
    parts = reader.parts()
    reader.take("end")
    return [Part(f"({where})")] if parts is None else parts
