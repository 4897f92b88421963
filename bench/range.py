#!/usr/bin/env python3
"""What somebody works out who knows more of the numbers than that they are whole, by answers that are all due. bench/range.sh calls this.

    range.py PROGRAM [--held] [KEY=VALUE ..]

Works in the folder that it is called in, over tables that it draws, whose public column is a number for each row. KEY=VALUE are further keys
of the schema. Each attack reads the replies alone, and what it works out is compared with the table afterwards: a number that it takes for
known and that is another one is a fault. It is also said, as front/near.py does, of how many numbers the report shows another one within the range
that is known.

An attack has to succeed if no key holds it off, and to fail if its key is given, as small as it has to be: then it gets nothing, so many
of its questions are denied, and the report shows another number within the range for every row, or for all but as many rows as a
change may need for each number that stands at the range's end. --held runs those attacks alone that the keys hold off. The exit status is 1 if an
attack ends otherwise, or with --held if the keys hold off none."""
import json
import math
import os
import random
import subprocess
import sys
from typing import Callable, NamedTuple

from scipy.optimize import linprog

sys.path.insert(0, os.path.join(os.path.dirname(os.path.abspath(__file__)), "..", "front"))

from nearing.columns import Sums  # noqa: E402
from nearing.ranges import Range, for_each, shown_by  # noqa: E402

HIGHEST = 10**12  # what the format of the table's file allows, either way
SOLVED, WITHOUT_END = 0, 3  # how linprog says that it is done


class Table:
    """A fresh journal over a table with these columns of sums. `asked` and `denied` count its questions."""

    def __init__(self, program, keys, columns):
        self.program, self.numbers, self.asked, self.denied = program, next(iter(columns.values())), 0, 0
        if os.path.exists("answers.journal"):
            os.remove("answers.journal")
        kinds = [{"name": "id", "is": "number"}] + [{"name": name, "is": "sum"} for name in columns]
        with open("schema.json", "w") as schema:
            json.dump({"columns": kinds, **keys}, schema)
        with open("table.csv", "w") as table:
            print("id", *columns, sep=",", file=table)
            for row, numbers in enumerate(zip(*columns.values())):
                print(row, *numbers, sep=",", file=table)
        self.run("init", "")

    def run(self, words, given):
        ended = subprocess.run([self.program, *words.split()], input=given.encode(), capture_output=True)
        if ended.returncode != 0:
            sys.exit(f"range: {words} ended with status {ended.returncode}: {ended.stderr.decode().strip()}")
        return [json.loads(line) for line in ended.stdout.splitlines()]

    def sums(self, sets, column="v"):
        """The sum over each of these sets of rows, None if it is denied."""
        lines = [{"ask": "sum", "column": column, "where": f"id in ({', '.join(map(str, rows))})"} for rows in sets]
        replies = self.run("serve --batch 64", "".join(json.dumps(line, separators=(",", ":")) + "\n" for line in lines))
        found = [reply.get("sum") for reply in replies]
        self.asked += len(found)
        self.denied += found.count(None)
        return found

    def free(self, known):
        """How many numbers `audit` calls free, and of how many of the first column its report shows another one within a range."""
        changes = [dict(line["direction"]) for line in self.run("audit", "") if "direction" in line]
        shown = shown_by(Sums(self.numbers, changes[: len(self.numbers)]), for_each(known, len(self.numbers)))
        return len(changes), sum(ends != (number, number) for ends, number in zip(shown, self.numbers))


def lognormal(draw, count, middle=36_000, spread=0.5):
    """Numbers as incomes are: many about the middle, few far above."""
    return [round(middle * math.exp(draw.gauss(0, spread))) for _ in range(count)]


def unfold(sets, sums):
    """The pieces that the sums leave, in each of which one number is free: each number as a base and a slope times that of the piece's first
    row. Of each set at most one row that is in no piece has a piece before it; a set that is denied adds nothing, and the next ones begin a piece."""
    pieces, place_of = [], {}
    for rows, total in zip(sets, sums):
        new = [row for row in rows if row not in place_of]
        if total is None or not new:
            continue
        if len(new) == len(rows):
            place_of[new[0]] = len(pieces)
            pieces.append({new.pop(0): (0, 1)})
        (place,) = {place_of[row] for row in rows if row not in new}
        (last,) = new
        known = [pieces[place][row] for row in rows if row != last]
        pieces[place][last] = (total - sum(base for base, _ in known), -sum(slope for _, slope in known))
        place_of[last] = place
    return pieces


def within(piece, low, high):
    """The least and the greatest number of the first row with which all numbers of a piece are in the range. `high` may be None."""
    first, last = low, high if high is not None else HIGHEST
    for base, slope in piece.values():
        ends = [low - base, (high if high is not None else HIGHEST) - base]
        least, most = ends if slope > 0 else [-end for end in reversed(ends)]
        first = max(first, -(-least // abs(slope)))
        last = min(last, most // abs(slope))
    return first, last


def known_exactly(numbers, sets, sums, low, high):
    """How many numbers follow from the sums and the range alone, piece by piece."""
    known = 0
    for piece in unfold(sets, sums):
        first, last = within(piece, low, high)
        if first == last:
            known += len(piece)
            if any(numbers[row] != base + slope * first for row, (base, slope) in piece.items()):
                sys.exit("range: a number that was worked out isn't that of the table")
    return known


def doubling(width):
    """Sets of two and three rows that leave one change: 1 at row 0, and twice as much at each level, until it is wider than the range."""
    levels = (width).bit_length()
    sets, first, second, free = [[0, 1], [0, 2]], 1, 2, 3
    for _ in range(1, levels):
        sets += [[free, first, second], [free, free + 1], [free, free + 2]]
        first, second, free = free + 1, free + 2, free + 3
    return sets + [[free, first, second]]


def chain(count, draw):
    """Sets of two neighbours each, along a line through all rows by chance."""
    order = list(range(count))
    draw.shuffle(order)
    return [list(pair) for pair in zip(order, order[1:])]


def exact(program, keys, numbers, sets, low, high):
    """Asks for the sums over these sets, and says how many numbers they give to one who knows the range."""
    table = Table(program, keys, {"v": numbers})
    known = known_exactly(numbers, sets, table.sums(sets), low, high)
    return table, known, len(numbers), "exactly"


def by_doubling(program, keys, low, high):
    sets = doubling(high - low)
    people = 1 + max(map(max, sets))
    return exact(program, keys, lognormal(random.Random(1), people), sets, low, high)


def beside_ten(program, keys, low, high):
    """The same where no sum may be over fewer than ten people: ten more are in each, and their own total is asked first."""
    sets = doubling(high - low)
    people = 1 + max(map(max, sets))
    ten = list(range(people, people + 10))
    numbers = lognormal(random.Random(1), people + 10)
    table = Table(program, keys, {"v": numbers})
    beside, *sums = table.sums([ten, *(rows + ten for rows in sets)])
    less = [None if None in (total, beside) else total - beside for total in sums]
    return table, known_exactly(numbers, sets, less, low, high), people, "exactly"


def by_chain(program, keys, numbers, seed):
    return exact(program, keys, numbers, chain(len(numbers), random.Random(seed)), 0, None)


def two_zeros():
    numbers = lognormal(random.Random(2), 400)
    numbers[17] = numbers[230] = 0
    return numbers


def many_zeros():
    """1,000 numbers, of which 465 are 0."""
    draw = random.Random(3)
    numbers = lognormal(draw, 535) + [0] * 465
    draw.shuffle(numbers)
    return numbers


def by_halves(program, keys):
    """Sums over ten of twenty people, drawn by chance, for five twenties: how many numbers a linear program brings near, none below 0."""
    draw = random.Random(13)
    numbers = lognormal(draw, 100)
    table, known = Table(program, keys, {"v": numbers}), 0
    for start in range(0, 100, 20):
        sets = [sorted(draw.sample(range(start, start + 20), 10)) for _ in range(60)]
        told = [(rows, total) for rows, total in zip(sets, table.sums(sets)) if total is not None]
        known += sum(near(low, high, number, 0.1) for (low, high), number in zip(ends(told, start), numbers[start:]))
    return table, known, 100, "within 10 %"


def ends(told, start):
    """The least and the greatest that each of twenty numbers from a row on can be by some sums, if none is below 0."""
    sets = [[int(start + place in rows) for place in range(20)] for rows, _ in told]
    totals = [total for _, total in told]
    for place in range(20):
        one = [int(place == other) for other in range(20)]
        least, most = (least_of([sign * cost for cost in one], sets, totals) for sign in (1, -1))
        yield least - 1e-6 * (1 + abs(least)), -most + 1e-6 * (1 + abs(most))


def least_of(cost, sets, totals):
    """The least cost of twenty numbers that give these sums, none below 0; without end if there is none."""
    found = linprog(cost, A_eq=sets, b_eq=totals, method="highs")
    if found.status not in (SOLVED, WITHOUT_END):
        sys.exit(f"range: no solution: {found.message}")
    return found.fun if found.status == SOLVED else -math.inf


def by_scale(program, keys):
    """A pay scale of 15 grades with ten steps each: each one's grade is known, and sums over two people of different grades are asked."""
    draw = random.Random(5)
    starts = [round(21_000 * 1.12**grade) for grade in range(15)]
    scale = [[start + step * round(start / 30) for step in range(10)] for start in starts]
    grades = [row % 15 for row in range(200)]
    numbers = [draw.choice(scale[grade]) for grade in grades]
    pairs = [(row, row + 1) for row in range(0, 200, 2)]
    table, known = Table(program, keys, {"v": numbers}), 0
    for (one, other), total in zip(pairs, table.sums(pairs)):
        fits = [pay for pay in scale[grades[one]] if total is not None and total - pay in scale[grades[other]]]
        if len(fits) == 1:
            known += 2
            if (fits[0], total - fits[0]) != (numbers[one], numbers[other]):
                sys.exit("range: a pay that was worked out isn't that of the table")
    return table, known, 200, "exactly"


def by_order(program, keys):
    """Rows sorted by their numbers: sums over neighbours."""
    numbers = sorted(lognormal(random.Random(7), 400))
    pairs = [(row, row + 1) for row in range(0, 400, 2)]
    table = Table(program, keys, {"v": numbers})
    sums = table.sums(pairs)
    if None in sums:
        return table, 0, 400, "within 1 %"
    known = 0
    for place, (total, (one, other)) in enumerate(zip(sums, pairs)):
        below = sums[place - 1] / 2 if place else 0
        above = sums[place + 1] / 2 if place + 1 < len(sums) else HIGHEST
        low, high = max(below, total - above), total / 2
        known += near(low, high, numbers[one], 0.01) + near(total - high, total - low, numbers[other], 0.01)
    return table, known, 400, "within 1 %"


def near(low, high, number, share):
    """Whether all from `low` to `high`, in which the number is, is near it."""
    if not low <= number <= high:
        sys.exit("range: a number isn't in the range that was worked out")
    return low >= number * (1 - share) and high <= number * (1 + share)


def by_two_columns(program, keys):
    """A bonus of a tenth of the pay, rounded: of each three people one sum of pays and two of bonuses."""
    pays = lognormal(random.Random(11), 198)
    table, known = Table(program, keys, {"pay": pays, "bonus": [round(pay / 10) for pay in pays]}), 0
    threes = range(0, 198, 3)
    pay = table.sums([(row, row + 1) for row in threes], "pay")
    later, outer = (table.sums([(row + step, row + 2) for row in threes], "bonus") for step in (1, 0))
    for row, total, second, first in zip(threes, pay, later, outer):
        if None in (total, second, first):
            continue
        guess = (total + 10 * first - 10 * second) / 2
        guesses = (guess, total - guess, 10 * first - guess)
        known += sum(abs(guess - number) <= number * 0.001 for guess, number in zip(guesses, pays[row:]))
    return table, known, 198, "within 0.1 %"


class Attack(NamedTuple):
    """What is known beside the replies, the range that it has, what is asked, and how many of ten numbers it gets. Then which key of a schema
    holds it off, as long as it states no more than the number that is given, how many sums are denied at least, and how many numbers stand at
    the end of the range."""

    knows: str
    range: Range
    run: Callable
    of_ten: int
    key: str | None = None
    most: int = 0
    denied: int = 0
    at_the_end: int = 0

    def is_held_off(self, keys):
        """Whether these keys of a schema hold it off; None if that isn't known: its key states more than is needed, or a reach alone cuts
        short what takes a width."""
        if self.key in keys:
            return True if keys[self.key] <= self.most else None
        return None if self.key == "width" and "reach" in keys else False


PAYS, FORMAT, NOT_BELOW = Range(0, 250_000), Range(-HIGHEST, HIGHEST), Range(0, None)
ATTACKS = [
    Attack("none below 0 or above 250,000", PAYS, lambda *run: by_doubling(*run, *PAYS), 10, "width", 4, 4),
    Attack("the same, in sums over ten and more", PAYS, lambda *run: beside_ten(*run, *PAYS), 10, "width", 4, 4),
    Attack("none beyond 10^12, as the format has it", FORMAT, lambda *run: by_doubling(*run, *FORMAT), 10, "width", 4, 10),
    # In every other order by chance both zeros are an even number of places apart, and then one number is left free.
    Attack("none below 0, where two of 400 are 0", NOT_BELOW, lambda *run: by_chain(*run, two_zeros(), 4), 10, "reach", 50, 7, 2),
    Attack("none below 0, where 465 of 1,000 are 0", NOT_BELOW, lambda *run: by_chain(*run, many_zeros(), 1), 9),
    Attack("none below 0, sums over halves of twenty", NOT_BELOW, by_halves, 1, "width", 4),
    Attack("a pay scale, and each one's grade", NOT_BELOW, by_scale, 10),
    Attack("the rows are sorted by the numbers", NOT_BELOW, by_order, 8),
    Attack("a bonus is a tenth of the pay", NOT_BELOW, by_two_columns, 10),
]


class Outcome:
    """How an attack ended over a program."""

    def __init__(self, attack, program, keys):
        self.attack, self.keys = attack, keys
        self.table, self.known, self.people, self.how = attack.run(program, keys)
        self.free, self.inside = self.table.free(attack.range)

    def is_as_due(self):
        """Whether it succeeded or failed, as the keys have it."""
        is_held_off = self.attack.is_held_off(self.keys)
        if not is_held_off:
            return is_held_off is None or self.known * 10 >= self.people * self.attack.of_ten
        held_still = self.attack.at_the_end * self.keys.get("reach", 0)
        is_shown = len(self.table.numbers) - self.inside <= held_still
        return is_shown and self.known == 0 and self.table.denied >= self.attack.denied

    def __str__(self):
        table = self.table
        return (
            f"{self.attack.knows}: {table.asked} sums asked, {table.denied} denied; {self.known} of {self.people} numbers known {self.how};"
            f" audit calls {self.free} free, {self.inside} of them within the range"
        )


def main():
    program, *words = sys.argv[1:]
    keys = {key: json.loads(value) for key, value in (word.split("=", 1) for word in words if word != "--held")}
    attacks = [attack for attack in ATTACKS if attack.is_held_off(keys) or "--held" not in words]
    is_wrong = not attacks
    for attack in attacks:
        outcome = Outcome(attack, program, keys)
        is_wrong |= not outcome.is_as_due()
        print(outcome, "" if outcome.is_as_due() else "  <- not as expected", sep="", flush=True)
    return is_wrong


if __name__ == "__main__":
    sys.exit(main())
