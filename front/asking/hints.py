"""Why a condition is refused at a byte, and how it is written rightly.

The program says the byte. What stands there is looked at here, as people write it who know another language. If nothing is
recognised there is no sentence, and the program's word stands alone.
"""

import re
import unicodedata

from .questions import SECRET, no_column, public_names

KEYWORDS = ("and", "or", "not", "in", "all")
SPELLINGS = {
    "==": "=",
    "<>": "!=",
    "&&": "and",
    "&": "and",
    "||": "or",
    "|": "or",
    "=>": ">=",
    "=<": "<=",
    "≥": ">=",
    "≤": "<=",
    "≠": "!=",
}
QUOTES = '"“”„«»‘’`´'
TOKEN = re.compile(
    r"""(?P<text>'(?:[^']|'')*')|(?P<quoted>["“„«][^"”“»]*["”“»]|[‘`´][^’`´]*[’`´])"""
    r"|(?P<between>[A-Za-z]\w*\s+between\s+(?:'(?:[^']|'')*'|-?\d+)\s+and\s+(?:'(?:[^']|'')*'|-?\d+))"
    r"|(?P<notin>[A-Za-z]\w*\s+not\s+in\b)|(?P<spelling>==|<>|&&|\|\||=>|=<|[&|≥≤≠])"
    r"|(?P<not>!(?!=))|(?P<word>[A-Za-z]\w*)|(?P<other>.)",
    re.IGNORECASE | re.DOTALL,
)


def place_of(condition, at):
    """The character at which byte `at` of the condition lies."""
    return len(condition.encode()[:at].decode(errors="ignore"))


def marked(condition, at, indent="  "):
    """The condition with a mark under the byte, as wide as a terminal shows it."""
    line = re.sub(r"\s", " ", condition)
    line = "".join(letter if letter.isprintable() else "?" for letter in line)
    before = line[: place_of(condition, at)]
    return f"{indent}{line}\n{indent}{' ' * sum(map(width, before))}^"


def width(letter):
    """How many columns of a terminal a letter takes."""
    if unicodedata.combining(letter):
        return 0
    return 2 if unicodedata.east_asian_width(letter) in "WF" else 1


def mended(condition):
    """The condition with the habits of other languages put right, outside of its texts."""
    return "".join(mended_token(found) for found in TOKEN.finditer(condition))


def mended_token(found):
    """What a token of another language is written as here; any other token as it stands."""
    token = found[0]
    if found["quoted"]:
        return "'" + token[1:-1].replace("'", "''") + "'"
    if found["between"]:
        name, low, high = re.fullmatch(
            r"(\w+)\s+between\s+(.+?)\s+and\s+(.+)", token, re.IGNORECASE | re.DOTALL
        ).groups()
        return f"{name} >= {low} and {name} <= {high}"
    if found["notin"]:
        return f"not {token.split()[0]} in"
    if found["spelling"]:
        return (
            SPELLINGS[token]
            if len(SPELLINGS[token]) <= 2 and SPELLINGS[token] != "or"
            else spaced(found, SPELLINGS[token])
        )
    if found["not"]:
        return "not "
    if found["word"] and token.lower() in KEYWORDS:
        return token.lower()
    return token


def spaced(found, word):
    """A word in place of a mark, with blanks if the mark had none."""
    before = found.string[: found.start()][-1:]
    after = found.string[found.end() :][:1]
    return (" " if before.strip() else "") + word + (" " if after.strip() else "")


def hint(condition, at, kinds, decimals):
    """A sentence on what is wrong there, or None. `kinds` and `decimals` are those of the columns by name."""
    place = place_of(condition, at)
    before, rest = condition[:place].rstrip(), condition[place:]
    for rule in (end_words, mark_words, quote_words, word_words, wrong_number_words):
        sentence = rule(before, rest, kinds, decimals)
        if sentence:
            return sentence
    return None


def end_words(before, rest, kinds, decimals):
    """A condition that ends too early or too late."""
    if not before and not rest.strip():
        return "the condition is empty: all means every row"
    if not rest.strip():
        return "the condition ends too early"
    if rest.startswith(";"):
        return "a condition ends without a semicolon"
    return None


def mark_words(before, rest, kinds, decimals):
    """Signs that other languages have, whether the program stopped at them or within them."""
    if before.endswith(("=", "<")) and rest[0] in "=<>":
        rest = before[-1] + rest
    mark = next((mark for mark in sorted(SPELLINGS, key=len, reverse=True) if rest.startswith(mark)), None)
    if mark:
        return f"{SPELLINGS[mark]} is written in place of {mark}"
    if rest.startswith("!"):
        return "not is written in place of !"
    column = last_column(before, kinds)
    if column and kinds[column] == "text" and rest[0] in "<>":
        return f"{column} is a column of texts, which have no order: it takes =, != and in"
    if rest[0] in "+*/%" or (rest[0] == "-" and not rest[1:2].isdigit()):
        return "a condition compares a column with what is written there, and doesn't reckon"
    return None


def quote_words(before, rest, kinds, decimals):
    """Quotes that aren't single, aren't closed, or stand around a number."""
    column = last_column(before, kinds)
    if rest[0] in QUOTES:
        return "a text stands in single quotes, '"
    if before.endswith("'") and rest[0].isalnum():
        return "a ' within a text is written twice, as in 'Ann''s'"
    if rest.startswith("'") and not re.match(r"'(?:[^']|'')*'", rest):
        return "the text isn't closed: it ends with a ', and a ' within it is written twice"
    if rest.startswith("'") and column and kinds[column] == "number":
        return f"{column} is a column of numbers: its number is written without quotes"
    return None


def word_words(before, rest, kinds, decimals):
    """A word that isn't one here: another language's, a secret column, a text without its quotes, a wrong name."""
    found = re.match(r"[^\W\d]\w*", rest)
    if not found:
        return None
    word, column = found[0], last_column(before, kinds)
    lower = word.lower()
    if lower == "between":
        return f"between isn't known: write {column or 'age'} >= 30 and {column or 'age'} <= 40"
    if lower in ("like", "is", "contains", "null"):
        return f"{lower} isn't known: a text is compared as a whole, by =, != or in, and no cell is empty"
    if lower == "not" and column:
        return f"not stands before what it denies: write not {column} in (..)"
    if lower in KEYWORDS and word != lower:
        return f"{lower} is written in small letters"
    if kinds.get(word) in SECRET:
        return f"{word} is secret, and a condition is over public columns alone: {', '.join(public_names(kinds))}"
    if column and re.search(r"[=<>(,]$", before):
        return (
            f"{column} is compared with a text, which stands in single quotes: '{word}'"
            if kinds[column] == "text"
            else f"{column} is compared with a whole number"
        )
    if word not in kinds and lower not in KEYWORDS:
        return no_column(word, {name: kinds[name] for name in public_names(kinds)})
    return None


def wrong_number_words(before, rest, kinds, decimals):
    """A number that isn't whole, has marks in it, is too long, stands first, or stands where a text should."""
    column = last_column(before, kinds)
    part = re.match(r"[.,](\d+)", rest)
    whole = re.search(r"(-?\d+)$", before)
    if part and whole and not (rest[0] == "," and len(part[1]) == 3):
        kept = decimals.get(column, 0)
        if kept >= len(part[1]):
            return (
                f"{column} is kept in steps of {'0.' + '0' * (kept - 1)}1: write"
                f" {int(whole[1] + part[1].ljust(kept, '0'))}"
            )
        return "a number in a condition is whole, without a point"
    if part and whole:
        return f"a number is written without marks between thousands: {whole[1]}{part[1]}"
    if re.match(r"-?\d", rest) is None:
        return None
    if re.match(r"-?0*\d{13,}", rest):
        return "the number is too large: at most 1000000000000"
    if column and kinds[column] == "text" and re.search(r"[=(,]$", before):
        return f"{column} is a column of texts: write '{re.match(r'-?[0-9]+', rest)[0]}' in single quotes"
    if not before or re.search(r"(\b(and|or|not)|\()$", before):
        return "a comparison begins with the column: age >= 30 and not 30 <= age"
    return "a comparison is missing: =, !=, <, <=, > or >="


def last_column(before, kinds):
    """The public column that the last comparison is of, if the text before ends within one."""
    tail = re.split(r"\b(?:and|or|not)\b", re.sub(r"'(?:[^']|'')*'", "''", before))[-1]
    names = [word for word in re.findall(r"[A-Za-z]\w*", tail) if kinds.get(word) in ("text", "number")]
    return names[-1] if names else None
