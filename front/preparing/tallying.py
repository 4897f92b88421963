"""What stands in a column: how often each different cell does. Of a file that is streamed only so many different ones are kept."""

import collections

from .cells import is_missing

MOST_DIFFERENT = 20_000     # of a column of a streamed file


class Tally:
    """The cells of a column, those that seem to mean that nothing is known apart. `others` counts the cells that are not kept."""

    def __init__(self, most=None):
        self.most, self.rows, self.others = most, 0, 0
        self.cells, self.gaps = collections.Counter(), collections.Counter()

    def add(self, cell):
        """One cell more, without the blanks around it."""
        self.rows += 1
        if cell in self.cells:
            self.cells[cell] += 1
        elif is_missing(cell):
            self.gaps[cell] += 1
        elif self.most is None or len(self.cells) < self.most:
            self.cells[cell] = 1
        else:
            self.others += 1

    def words(self):
        """How many different cells there are."""
        if self.others:
            return f"more than {len(self.cells):,} different, and what follows goes by the first of them"
        return f"{len(self.cells):,} different"

    def is_each_its_own(self):
        """Whether every row has its own value."""
        return not self.others and len(self.cells) + len(self.gaps) == self.rows > 1


def tallies_of(rows, number, most=None):
    """A tally of each of so many columns, of the cells of each row."""
    found = [Tally(most) for _ in range(number)]
    for cells in rows:
        for tally, cell in zip(found, cells):
            tally.add(cell.strip())
    return found
