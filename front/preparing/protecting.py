"""Totals that must stay open: which can't be protected and why, and what each of them comes to in the table."""

import json

from asking.hints import hint, marked

from .choices import PUBLIC
from .conditions import Wrong, read_condition
from .faults import MOST_SHOWN, Fault, counted, listed, shown

MOST_TOTALS, LONGEST_CONDITION = 64, 8192
LONGEST_SHOWN = 100


def total_words(group):
    """A total as it is named to people."""
    where = group["where"]
    plain = where.isprintable() and len(where) <= LONGEST_SHOWN
    return f"the total of {group['column']} where {where if plain else shown(where, LONGEST_SHOWN)}"


def kinds_of(columns):
    """The kinds of the public columns by name."""
    return {column.name: column.kind for column in columns if column.kind in PUBLIC}


def need_totals(groups, columns):
    """A Fault that names each total that can't be protected. `columns` are those that are written."""
    faults = [fault for group in groups for fault in total_faults(group, columns)]
    if len(groups) > MOST_TOTALS:
        faults.append(f"{len(groups):,} totals are to be protected, and at most {MOST_TOTALS} can be")
    if faults:
        raise Fault(listed(faults))


def total_faults(group, columns):
    """A sentence on one entry of the list, or nothing."""
    if not isinstance(group, dict) or sorted(group) != ["column", "where"] or not is_texts(group.values()):
        return [f'"protect" has {shown(json.dumps(group))} in it: each entry has the keys "column" and "where", both texts']
    why = column_fault(group["column"], {column.name: column.kind for column in columns})
    why = why or condition_fault(group["where"], columns)
    return [f"{total_words(group)} can't be protected: {why}"] if why else []


def is_texts(values):
    return all(isinstance(value, str) for value in values)


def column_fault(name, kinds):
    """Why totals of this column can't be protected, or None."""
    if name not in kinds:
        return f"there is no column {shown(name)}"
    if kinds[name] in PUBLIC:
        return f"{name} is public, so everyone knows its totals"
    return None if kinds[name] == "sum" else f"{name} is {kinds[name]}, and only totals of a column that is sum can be"


def condition_fault(where, columns):
    """Why this isn't a condition, with a mark under the byte from which on it isn't understood, or None."""
    if len(where.encode()) > LONGEST_CONDITION:
        return f"its condition has {len(where.encode()):,} bytes, and at most {LONGEST_CONDITION:,} are read"
    try:
        read_condition(where, kinds_of(columns))
    except Wrong as wrong:
        decimals = {column.name: decimals_of(column) for column in columns}
        why = hint(where, wrong.at, {column.name: column.kind for column in columns}, decimals)
        return f"{why or wrong}\n{marked(where, wrong.at)}"
    return None


def decimals_of(column):
    """How many decimals are in the column's whole numbers, as far as that is chosen."""
    decimals = (column.chosen or {}).get("decimals")
    return decimals if isinstance(decimals, int) else 0


def say_totals(groups, columns, parts):
    """A line for each total, with the rows that it is over, and one more if they are none, one, or all of a table."""
    for group in groups:
        holds = read_condition(group["where"], kinds_of(columns))
        sizes = [(part, sum(map(holds, part.rows))) for part in parts]
        print(f"protected: {total_words(group)}, {size_words(sizes)}")
        for why in careful_words(sizes):
            print(f"CAREFUL: {why}")


def size_words(sizes):
    """Over how many rows a total is, and of which parts."""
    rows = f"over {sum(size for _, size in sizes):,} of {counted(sum(len(part.rows) for part, _ in sizes), 'row')}"
    inside = [f"{part.name} {size:,}" for part, size in sizes if size and part.name]
    more = f" and {len(inside) - MOST_SHOWN:,} more" if len(inside) > MOST_SHOWN else ""
    return rows + (f", in {', '.join(inside[:MOST_SHOWN])}{more}, in each by itself" if inside else "")


def careful_words(sizes):
    """What a total comes to that is over no row, over one, or over every row of a table."""
    if not any(size for _, size in sizes):
        return ["no row satisfies this, so nothing is protected by it. Is it written as it stands in the table?"]
    lone = [part.name for part, size in sizes if size == 1]
    whole = [part.name for part, size in sizes if size == len(part.rows) > 1]
    return [f"{place_words(lone)}this is one row, whose number is kept open anyway"] * bool(lone) + [
        f"{place_words(whole)}these are all rows: the total of the whole table isn't answered, nor the last one of parts"
        " that add up to it"
    ] * bool(whole)


def place_words(names):
    """In which parts, if a table is cut into parts."""
    return f"in {', '.join(names[:MOST_SHOWN])} " if any(names) else ""
