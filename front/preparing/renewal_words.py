"""What `renew` says: who came, left and changed, what everybody sees of that, and what two rows of one person tell."""

from .choices import SECRET
from .faults import MOST_SHOWN, counted, first_numbers
from .guards import line_through, rule_words, say_what_is_known
from .keys import CURRENT, publics, secrets
from .largest import MOST_ROWS
from .making import say_changes
from .protecting import say_totals, total_words
from .ranges import say_ranges
from .splitting import Part


def say_renewal(renewal, folder, export, columns, later):
    """Says what became of whom, and points out what people may conclude."""
    now = [row for row in renewal.rows if row[CURRENT]]
    totals = export.choices["protect"] or []
    say_changes(export.choices, columns, export.table, export.changes)
    say_people(renewal, folder, now, later)
    say_cells(renewal, folder, columns)
    say_what_is_seen(renewal, later)
    if not later and folder.schema.get("askers") != "inside":
        say_two_rows(renewal, columns)
    say_dropped(export.changes)
    say_others(renewal, export)
    say_protected(folder.schema.get("protect", []), totals)
    say_totals(totals, columns, [Part(now)])
    say_what_is_known(now, publics(columns), secrets(columns))
    say_ranges(list(export.people.values()), [column for column in columns if column.kind in SECRET], export.places, folder.schema)


def people_words(number):
    return "1 person" if number == 1 else f"{number:,} people"


def say_people(renewal, folder, now, later):
    """How many came, left and changed, and how many rows are taken."""
    waits = ", and keep the earlier one" if later and renewal.changed else ""
    print(
        f"people: {len(now):,} now; {len(renewal.came):,} came, {len(renewal.left):,} left, {len(renewal.back):,} came back,"
        f" {len(renewal.changed):,} with another number{waits}"
    )
    added = len(renewal.rows) - len(folder.rows)
    order = ", in the order of their public cells, those that are alike by chance" if added > 1 else ""
    print(
        f"rows: {counted(added, 'new one')} at the end{order}; {len(renewal.rows):,} of {MOST_ROWS:,} are taken, {len(renewal.rows) - len(now):,}"
        " of them no longer current"
    )


def say_cells(renewal, folder, columns):
    """Which public columns came and went, and for how many people the others have another value."""
    there, now = folder.kinds(), {column.name: column.kind for column in columns}
    for name, number in renewal.moved.items():
        print(f"{name}: another value for {people_words(number)}")
    for name in publics(columns):
        if there.get(name) != now[name]:
            print(f"{name}: a new column, with {'nothing' if now[name] == 'text' else '0'} in the rows of those who aren't in the file")
    for name in there:
        if there[name] not in SECRET and name not in now:
            print(f"{name}: no longer a column")


def say_what_is_seen(renewal, later):
    """Points out what everybody sees of who came, left and changed."""
    if renewal.left or renewal.back or renewal.came or renewal.changed and not later:
        print(
            "CAREFUL: current is public, as every new row is: everybody sees who came and left, whose number changed and when, and whose"
            " didn't. So that nobody's change shows by its day, let all numbers change on one: renew with numbers=later until then, which"
            " keeps the earlier ones, and without it on that day"
        )


def say_two_rows(renewal, columns):
    """Points out what the two numbers of one person tell of each other."""
    if renewal.changed:
        alone = "one person's number changed" if len(renewal.changed) == 1 else f"{len(renewal.changed):,} people's numbers changed"
        print(
            f"CAREFUL: {alone}, and two rows of one person tell of each other: a total that was answered before and is answered again now"
            " differs by what these numbers changed by, and by those who came and left. Where one changed alone, that is by how much;"
            " and whoever knows the rate of a raise has both numbers then"
        )
    for name in secrets(columns):
        found = change_of(renewal, name)
        if found:
            print(
                f"CAREFUL: each {name} that changed is {' '.join(rule_words(*found).format('what it was').split())}: whoever knows that has"
                " one number of each of these people where the program has two. Three sums, before and after, can tell three people's"
            )


def change_of(renewal, name):
    """The factor and the rest with which each number that changed follows from the earlier one, of two people or more, or None."""
    pairs = [(was[name], now[name]) for was, now in renewal.changed.values() if was[name] != now[name]]
    return line_through(*zip(*pairs)) if len(pairs) > 1 else None


def say_dropped(changes):
    if changes.dropped:
        print(f"CAREFUL: {people_words(len(changes.dropped))} of the file were dropped, and count as not there: who was current isn't any more")


def say_others(renewal, export):
    """Points out people of whom everything is another: a key may have been given to somebody else."""
    if renewal.others:
        places = dict(zip(export.people, export.places))
        print(
            f"CAREFUL: of {people_words(len(renewal.others))} everything is other than it was. Is the key still the same person's? Counted"
            f" with the header as row 1: {first_numbers([places[key] for key in renewal.others])}"
        )


def say_protected(before, now):
    """Points out which totals are protected no longer, and which are now and weren't."""
    for groups, others, what in (
        (before, now, "no longer protected, so it may be answered"),
        (now, before, "protected from now on: if answers have fixed it, the next run ends with code 12, and it can't be protected any more"),
    ):
        for group in [group for group in groups if group not in others][:MOST_SHOWN]:
            print(f"CAREFUL: {total_words(group)} is {what}")
