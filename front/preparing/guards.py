"""What a table shows of what would break the promise: it is against those who know only that secrets are whole numbers.

Two columns that follow from each other by a plain rule are refused. What may be known besides is pointed out.
"""

import collections
import fractions
import itertools
import pathlib
import statistics

from .cells import NUMBER_FORMS
from .choices import PUBLIC, SECRET
from .faults import MOST_SHOWN, Fault, counted, listed, shown
from .guarding import is_inside

FEW_VALUES = 3
FEW_ROWS = 5  # of one public value, of which something can be said
OTHERS_READ, OTHERS_ENTER = 0o044, 0o011
ENOUGH_ROWS = 10  # of a table whose columns may go together by more than chance


def line_through(first, second):
    """The factor, not 0, and the rest with which second is first times factor plus rest in every row, or None.

    A rest other than 0 takes three different values to tell: through two there is always such a line.
    """
    pairs = sorted(set(zip(first, second)))
    nonzero = next(((x, y) for x, y in pairs if x and y), None)
    if nonzero:
        factor = fractions.Fraction(nonzero[1]) / fractions.Fraction(nonzero[0])
        if all(x * factor == y for x, y in pairs):
            return factor, 0
    if len({x for x, _ in pairs}) < 3 or len(pairs) != len({x for x, _ in pairs}):
        return None
    (x0, y0), (x1, y1) = pairs[:2]
    factor = fractions.Fraction(y1 - y0) / fractions.Fraction(x1 - x0)
    rest = y0 - factor * x0
    return (factor, rest) if factor and all(x * factor + rest == y for x, y in pairs) else None


def rule_words(factor, rest):
    """How one column follows from another, in words."""
    words = {1: "equal to", -1: "the negation of"}.get(factor, f"{factor} times")
    if rest:
        words = {1: "", -1: "the negation of"}.get(factor, words)
    return f"{words} " + (" {}" + f" {'plus' if rest > 0 else 'minus'} {abs(rest)}" if rest else "{}")


def related(first_name, first, second_name, second):
    """A sentence if one column of numbers follows from the other by a factor and a rest, else None."""
    found = line_through(first, second)
    if found is None:
        return None
    factor, rest = found
    if abs(factor) < 1 and not rest:
        return related(second_name, second, first_name, first)
    return f"{second_name} is " + " ".join(rule_words(factor, rest).format(first_name).split()) + " in every row"


def numbers_in(texts):
    """The numbers of a column of texts, if all of them are numbers in one form."""
    for form in NUMBER_FORMS:
        found = [form.read(text) for text in texts]
        if None not in found:
            return found
    return None


def secrets_apart(rows, columns, texts):
    """A Fault if a secret column follows from another secret one, or from a public one.

    `texts` has the cells of the columns of text, since a secret may stand there once more.
    """
    secret = {column.name: [row[column.name] for row in rows] for column in columns if column.kind in SECRET}
    public = {column.name: [row[column.name] for row in rows] for column in columns if column.kind == "number"}
    public |= {name: numbers for name, cells in texts.items() if (numbers := numbers_in(cells))}
    faults = []
    for first, second in itertools.combinations(secret, 2):
        why = related(first, secret[first], second, secret[second])
        if why:
            faults.append(
                f"{why}: answers on one would tell of the other, and each is decided by itself. Leave one of them out"
            )
    for first, second in itertools.product(public, secret):
        why = related(first, public[first], second, secret[second])
        if why:
            faults.append(f"{why}, and {first} is public: everyone could know {second}. Leave one of them out")
    if faults:
        raise Fault(listed(faults))


def say_what_is_known(rows, public, secret):
    """Points out what an asker may know besides, and whom the public columns single out."""
    for name in secret:
        say_of_secret(name, rows, public)
    for first, second in itertools.combinations(secret, 2):
        say_of_pair(first, second, rows)
    say_sums(rows, secret)
    for name in public:
        if len(rows) > 1 and len({row[name] for row in rows}) == len(rows):
            print(
                f"CAREFUL: every row has its own {name}, which is public: whoever knows it finds the row. Is it needed?"
            )
    alone = collections.Counter(tuple(row[name] for name in public) for row in rows)
    single = sum(number == 1 for number in alone.values())
    print(
        f"{single:,} of {counted(len(rows), 'row')} have public values that no other row has: whoever knows these finds"
        " the row, though not its secret numbers"
    )


def say_of_two(keys):
    """What two people who are in the table learn of each other, over every table that has sums and whose askers aren't inside."""
    if is_inside(keys):
        return
    print(
        "A sum over two people tells each of them the other's number. If people in the table may ask, choose askers=inside: door.py --least 5"
        " alone hands on no question over fewer than five people, but two that are answered may still differ by two of them"
    )


def say_readers(path):
    """Points out that the file with the secrets can be read by others, unless a folder above it keeps them out."""
    path = pathlib.Path(path)
    reached = all(folder.stat().st_mode & OTHERS_ENTER for folder in path.resolve().parents)
    if reached and path.stat().st_mode & OTHERS_READ:
        print(f"CAREFUL: others than its owner may read {path}, which has the secret numbers: chmod 600, or put it away")


def say_of_secret(name, rows, public):
    """Points out a secret column with few values, and one of which a public column tells much."""
    values = {row[name] for row in rows}
    if len(values) <= FEW_VALUES:
        print(
            f"CAREFUL: {name} is always one of {', '.join(str(value) for value in sorted(values))}: whoever knows that"
            " can work numbers out of the answers"
        )
    elif len(values) * 2 < len(rows):
        print(
            f"CAREFUL: {name} has {len(values):,} different numbers in {len(rows):,} rows, as numbers have that come from"
            " a list, such as a pay scale. A sum over two people tells both numbers to whoever knows the list: open no"
            " door on this column, and report it over groups of ten or more that have nobody in common"
        )
    if len(values) > 1:
        for other in public:
            say_of_public(other, name, rows)


def say_of_public(public, secret, rows):
    """Points out a public column that fixes a secret one, or nearly tells it within some of its values."""
    inside = collections.defaultdict(list)
    for row in rows:
        inside[row[public]].append(row[secret])
    if all(len(set(numbers)) == 1 for numbers in inside.values()) and len(inside) <= len(rows) / 2:
        print(
            f"CAREFUL: {public}, which is public, fixes {secret} in this table: whoever knows the rule knows the"
            " numbers"
        )
        return
    if len(inside) == 1:
        return
    large = {value: numbers for value, numbers in inside.items() if len(numbers) >= FEW_ROWS}
    say_values(public, secret, [value for value, numbers in large.items() if nearly_one(numbers)], "is one number but for a row or two")
    say_values(public, secret, [value for value, numbers in large.items() if is_narrow(numbers)], "spreads by less than a tenth")


def nearly_one(numbers):
    """Whether all but two at most are one number."""
    return max(collections.Counter(numbers).values()) >= len(numbers) - 2


def is_narrow(numbers):
    """Whether the numbers aren't one but for a row or two, and all are within a tenth of the one in the middle."""
    spread = max(numbers) - min(numbers)
    return spread * 10 < abs(statistics.median_low(numbers)) and not nearly_one(numbers)


def say_values(public, secret, values, what):
    """Points out the values of a public column within which a secret one is nearly known."""
    if values:
        first = ", ".join(shown(value) for value in values[:MOST_SHOWN]) + (", .." if len(values) > MOST_SHOWN else "")
        print(
            f"CAREFUL: {secret} {what} where {public}, which is public, is one of: {first}. Whoever knows one of these"
            f" people's numbers knows nearly all of theirs. Join values of {public}, or leave it out"
        )


def say_of_pair(first, second, rows):
    """Points out two secret columns that give away each other's numbers, or nearly do."""
    pairs = [(row[first], row[second]) for row in rows]
    lengths = {len(set(pairs)), len({one for one, _ in pairs}), len({other for _, other in pairs})}
    if len(lengths) == 1 and FEW_VALUES < len(set(pairs)) < len(rows):
        print(f"CAREFUL: {first} and {second} fix each other: answers on one may tell of the other")
    whys = [f"{first} is never above {second}"] * has_order(pairs)
    whys += [f"{second} is never above {first}"] * has_order([(other, one) for one, other in pairs])
    whys += [f"{second} over {first} stays within a quarter in nine rows of ten"] * is_quotient_known(pairs)
    if whys and len(rows) >= ENOUGH_ROWS:
        print(
            f"CAREFUL: {', and '.join(whys)}: the two go together. Three sums can tell three people's numbers, or nearly,"
            f" to whoever knows that. Leave one of {first} and {second} out"
        )


def has_order(pairs):
    """Whether the first is never above the second, and the columns' own ranges don't say so already."""
    ends = max(one for one, _ in pairs), min(other for _, other in pairs)
    return all(one <= other for one, other in pairs) and ends[0] > ends[1]


def is_quotient_known(pairs):
    """Whether the quotients of nine rows in ten lie within a quarter of the least of them."""
    quotients = sorted(fractions.Fraction(other, one) for one, other in pairs if one and other * one > 0)
    wanted = -(-len(pairs) * 9 // 10)
    return any(high <= low * fractions.Fraction(5, 4) for low, high in zip(quotients, quotients[wanted - 1 :]))


def say_sums(rows, secret):
    """Points out a secret column that is the sum of two others."""
    for total in secret:
        for first, second in itertools.combinations([name for name in secret if name != total], 2):
            if len(rows) > 2 and all(row[total] == row[first] + row[second] for row in rows):
                print(
                    f"CAREFUL: {total} is {first} plus {second} in every row: answers on two of them tell of the third."
                    " Leave one of them out"
                )
