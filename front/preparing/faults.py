"""Why something can't be done, as a sentence for the person who asked for it."""

import sys

MOST_SHOWN = 20


class Fault(Exception):
    """One sentence or several lines: what is wrong, where, and what to do about it."""


def shown(value, most=40):
    """A cell or a title as it may be printed: quoted, control characters escaped, long ones cut with their length."""
    text = str(value)
    if len(text) <= most:
        return repr(text)
    return f"{text[:most]!r}.. ({len(text):,} characters)"


def listed(sentences):
    """The first twenty of many sentences, a line each, and how many more there are."""
    lines = sentences[:MOST_SHOWN]
    if len(sentences) > MOST_SHOWN:
        lines = lines + [f"and {len(sentences) - MOST_SHOWN:,} more"]
    return "\n".join(lines)


def first_numbers(numbers):
    """The first twenty of some numbers, and whether there are more."""
    return ", ".join(f"{number:,}" for number in numbers[:MOST_SHOWN]) + (", .." if len(numbers) > MOST_SHOWN else "")


def counted(number, noun):
    """A number with its noun: 1 row, 1,309 rows."""
    return f"{number:,} {noun}" + ("" if number == 1 else "s")


def os_words(fault):
    """What the system refused, in its words, after the name of the file."""
    return f"{fault.filename}: {fault.strerror}" if fault.filename and fault.strerror else str(fault)


def status_of(name, do, failed):
    """The status that a command ends with: what `do` gives, or `failed` once a sentence says why it can't be done."""
    try:
        return do()
    except Fault as fault:
        why = fault
    except OSError as fault:
        why = os_words(fault)
    except MemoryError:
        why = "out of memory"
    except KeyboardInterrupt:
        why = "stopped"
    print(f"{name}: {why}", file=sys.stderr)
    return failed
