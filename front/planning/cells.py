"""The cells of a table by some public columns: each combination of values that some row has, and with margins all totals over them."""
import dataclasses
import itertools

from .columns import literal


@dataclasses.dataclass(frozen=True)
class Cell:
    """The value of each column, None for all of them, and the condition of the rows with these values."""

    values: tuple
    where: str


def cells_of(by, rows, kinds, margins=True):
    """The cells by columns, a total before what it is over. A condition has its columns in the schema's order."""
    found = []
    for width in range(0 if margins else len(by), len(by) + 1):
        for kept in itertools.combinations(by, width):
            combinations = sorted({tuple(row[name] for name in kept) for row in rows})
            found += [cell_over(by, dict(zip(kept, values)), kinds) for values in combinations]
    return found


def cell_over(by, values, kinds):
    """The cell of the rows with these values, by column."""
    texts = [f"{name} = {literal(values[name])}" for name in kinds if name in values]
    return Cell(tuple(values.get(name) for name in by), " and ".join(texts) or "all")
