"""The order of the rows, which is public: reports and certificates name rows by it. It must say nothing of the secrets."""

import random


def by_public_cells(rows, public):
    """The rows in the order of their public cells, those that are alike by chance.

    The chance is the system's: nobody who knows how this run began can find out in which order alike rows came.
    """
    shuffled = random.SystemRandom().sample(rows, len(rows))
    return sorted(shuffled, key=lambda row: [row[name] for name in public])


def say_order():
    """Says that the rows stand otherwise than in the file, and why."""
    print("rows: in the order of their public cells, those that are alike by chance, since everybody may see their order")
