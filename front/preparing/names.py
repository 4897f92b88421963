"""Names of columns and folders as auditor and people can write them."""

import re
import unicodedata

KEYWORDS = {"and", "or", "not", "all", "in"}
LONGEST = 32
SPELLED = str.maketrans({"ß": "ss", "æ": "ae", "Æ": "Ae", "œ": "oe", "Œ": "Oe", "ø": "o", "Ø": "O", "ł": "l", "Ł": "L"})


def is_name(text):
    """A letter, then letters, digits and _, at most 32 in all, and not one of the words of conditions."""
    return re.fullmatch(r"[A-Za-z][A-Za-z0-9_]{0,31}", text, re.ASCII) is not None and text not in KEYWORDS


def plain(title, otherwise):
    """The title with its accents off and _ for all that a name can't have; the other text if nothing is left."""
    letters = unicodedata.normalize("NFKD", title[:1000].translate(SPELLED)).encode("ascii", "ignore").decode()
    name = re.sub(r"[^A-Za-z0-9]+", "_", letters).strip("_")
    if not name:
        name = otherwise
    if not name[0].isalpha():
        name = "c_" + name
    name = name[:LONGEST].rstrip("_")
    return name + "_" if name in KEYWORDS else name


def free(name, taken):
    """The name, or the name with the first number after it that isn't taken."""
    number, found = 2, name
    while found in taken:
        end = f"_{number}"
        found, number = name[: LONGEST - len(end)] + end, number + 1
    return found


def names_of(titles):
    """A name for each title. A title that is a good name keeps it, if it is the first that has it."""
    names, taken = {}, set()
    for place, title in enumerate(titles):
        if is_name(title) and title not in taken:
            names[place] = title
            taken.add(title)
    for place, title in enumerate(titles):
        if place not in names:
            names[place] = free(plain(title, f"column_{place + 1}"), taken)
            taken.add(names[place])
    return [names[place] for place in range(len(titles))]
