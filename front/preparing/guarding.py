"""Who asks, and of how few people what they have is guarded: what a schema says of both, what it does, and what it costs, in words.

The program has to know each of the two keys: an older one takes the schema for a faulty one.
"""

from .faults import shown

ASKERS, FEWEST = "askers", "fewest"
INSIDE, OUTSIDE = "inside", "outside"
WHO = (INSIDE, OUTSIDE)
LEAST, MOST = 2, 1000  # people, of whom fewer than so many may be guarded
INSIDE_WORDS = (
    "nobody who knows her own number learns another one's, or a protected total; two who tell each other their numbers have a third one's from"
    " a sum over three. Of tables that were tried all totals by two columns were answered for 85 of 100 in place of 96, and intervals for 77 in"
    " place of 84; totals by one column lost nothing"
)
FEWEST_WORDS = "what fewer people than that have is guarded: of sums the number of each of their rows, of maxima and minima that of any of their rows together"


def fill_in(choices):
    """A file of choices that doesn't say who asks was made when all askers were outside, and two people could be told of together."""
    choices.setdefault(ASKERS, OUTSIDE)
    choices.setdefault(FEWEST, None)


def guard_faults(choices):
    """A sentence for each of both that can't be followed."""
    faults = []
    if choices[ASKERS] not in WHO:
        faults.append(f'"{ASKERS}" can\'t be {shown(str(choices[ASKERS]))}: it is one of {", ".join(WHO)}')
    if choices[FEWEST] is not None and not LEAST <= choices[FEWEST] <= MOST:
        faults.append(f'"{FEWEST}" can\'t be {choices[FEWEST]}: it is {LEAST} to {MOST:,}, or null for no such number')
    return faults


def guard_of(choices):
    """What the schema says of both, by key."""
    inside = {ASKERS: INSIDE} if choices[ASKERS] == INSIDE else {}
    return inside | ({FEWEST: choices[FEWEST]} if choices[FEWEST] is not None else {})


def is_inside(keys):
    """Whether choices, or a schema, say that the people in the table ask."""
    return keys.get(ASKERS) == INSIDE


def few_of(keys):
    """A row of fewer people than this is guarded against everybody: one of them may ask if the askers are inside."""
    return (keys.get(FEWEST) or LEAST) + is_inside(keys)


def question():
    """What is asked of whoever makes a table."""
    return (
        f" (who asks: {INSIDE} if people in the table may ask too, each of whom knows her own number, else {OUTSIDE}. With {INSIDE} {INSIDE_WORDS})"
        f" [{', '.join(WHO)}]"
    )


def say_choice():
    """How both are chosen."""
    print(
        f'"{ASKERS}" says who asks: choose {ASKERS}={INSIDE} if people in the table may ask too, each of whom knows her own number, else {ASKERS}={OUTSIDE}.'
        f" With {INSIDE} {INSIDE_WORDS}."
    )
    print(f'"{FEWEST}" is for rows of several people, and for maxima and minima: with {FEWEST}=3 {FEWEST_WORDS}.')


def say_guard(guard):
    """What the keys of a schema do and cost."""
    if is_inside(guard):
        print(f"askers inside: {INSIDE_WORDS}")
    if FEWEST in guard:
        print(f"fewest {guard[FEWEST]:,}: {FEWEST_WORDS}")


def few_words(sizes, few):
    """How many rows are guarded, of the numbers of people of each, if these aren't those of one person."""
    number = sum(size < few for size in sizes)
    return f", {number:,} of fewer than {few:,}" if few > LEAST else ""
