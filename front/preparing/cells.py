"""What a cell may mean: the forms in which people write numbers and dates, each read exactly or not at all.

A number is a Fraction, so that 0.1 is a tenth. A date is the whole number 20170131.
"""

import datetime
import fractions
import re
import unicodedata

LONGEST_NUMBER = 1000
PLAIN = re.compile(r"[+-]?\d{1,1000}", re.ASCII)
MISSING = {"", "na", "<na>", "n/a", "#n/a", "nan", "null", "none", "missing", "-", "--", ".", "?"}
BLANKS = dict.fromkeys(map(ord, "\u00a0\u2007\u2009\u202f"), " ") | {0x2212: "-"}


class NumberForm:
    """Numbers with a decimal mark or none, and a mark between thousands or none, named by an example."""

    kind = "number"

    def __init__(self, name, decimal="", thousands=""):
        self.name, self.decimal, self.thousands = name, decimal, thousands
        grouped = rf"[1-9]\d{{0,2}}(?:{re.escape(thousands)}\d{{3}})+|" if thousands else ""
        part = rf"(?:{re.escape(decimal)}(?P<part>\d+))?" if decimal else "(?P<part>(?!))?"
        self.pattern = re.compile(
            rf"(?P<sign>[+-]?)(?P<whole>{grouped}\d+){part}(?:[eE](?P<exponent>[+-]?\d{{1,3}}))?", re.ASCII
        )

    def match(self, cell):
        return self.pattern.fullmatch(cell.translate(BLANKS)) if len(cell) <= LONGEST_NUMBER else None

    def read(self, cell):
        """The number that the cell spells, or None."""
        found = self.match(cell)
        if found is None:
            return None
        whole = found["whole"].replace(self.thousands, "") if self.thousands else found["whole"]
        part = found["part"] or ""
        number = fractions.Fraction(int(whole + part)) * fractions.Fraction(10) ** (
            int(found["exponent"] or 0) - len(part)
        )
        return -number if found["sign"] == "-" else number

    def decimals(self, cell):
        """How many decimals the cell is written with."""
        found = self.match(cell)
        return max(0, len(found["part"] or "") - int(found["exponent"] or 0)) if found else 0


class DateForm:
    """Dates in one order, named as it is written; what follows the day, as a time, is left off."""

    kind = "date"

    def __init__(self, name, pattern):
        self.name, self.pattern = name, re.compile(pattern, re.ASCII)

    def read(self, cell):
        """The date that the cell spells as a whole number, or None. 30 February isn't a date."""
        found = self.pattern.fullmatch(cell)
        if found is None:
            return None
        try:
            day = datetime.date(int(found["year"]), int(found["month"]), int(found["day"]))
        except ValueError:
            return None
        return fractions.Fraction(day.year * 10000 + day.month * 100 + day.day)

    def decimals(self, cell):
        return 0


def date_pattern(name):
    """The pattern of a form such as DD.MM.YYYY; days and months may have one digit, years have four."""
    pattern = re.escape(name)
    for mark, part in (("YYYY", r"(?P<year>\d{4})"), ("MM", r"(?P<month>\d{1,2})"), ("DD", r"(?P<day>\d{1,2})")):
        pattern = pattern.replace(mark, part)
    return re.sub("hh:mm:ss", r"\\d{1,2}:\\d{2}(?::\\d{2})?(?:\\.\\d+)?", pattern)


NUMBER_FORMS = [
    NumberForm("1234"),
    NumberForm("1234.5", "."),
    NumberForm("1234,5", ","),
    NumberForm("1,234", "", ","),
    NumberForm("1.234", "", "."),
    NumberForm("1 234", "", " "),
    NumberForm("1'234", "", "'"),
    NumberForm("1,234.5", ".", ","),
    NumberForm("1.234,5", ",", "."),
    NumberForm("1 234.5", ".", " "),
    NumberForm("1 234,5", ",", " "),
    NumberForm("1'234.5", ".", "'"),
    NumberForm("1'234,5", ",", "'"),
]
DATE_NAMES = [
    "YYYY-MM-DD",
    "YYYY/MM/DD",
    "YYYY-MM-DD hh:mm:ss",
    "YYYY-MM-DDThh:mm:ss",
    "DD.MM.YYYY",
    "DD/MM/YYYY",
    "MM/DD/YYYY",
    "DD-MM-YYYY",
    "MM-DD-YYYY",
]
FORMS = {form.name: form for form in NUMBER_FORMS + [DateForm(name, date_pattern(name)) for name in DATE_NAMES]}


def is_missing(cell):
    """Whether a cell looks as cells do if nothing is known. A person decides whether that is what it says."""
    return cell.lower() in MISSING


def forms_of(cells):
    """The forms that every cell has, one for each meaning: forms that read every cell alike count as their first."""
    if cells and all(PLAIN.fullmatch(cell) for cell in cells):
        return ["1234"]
    meanings = {}
    for name, form in FORMS.items():
        numbers = read_all(form, cells)
        if numbers:
            meanings.setdefault(numbers, name)
    return list(meanings.values())


def read_all(form, cells):
    """Every cell's number, or None from the first cell on that the form doesn't read."""
    numbers = []
    for cell in cells:
        number = form.read(cell)
        if number is None:
            return None
        numbers.append(number)
    return tuple(numbers)


def unit_parts(cell):
    """What stands before and after a number in a cell, if it looks like a unit: a currency, per cent, a short word."""
    cell = cell.translate(BLANKS)
    found = re.fullmatch(
        r"(?P<sign>[+-]?)(?P<before>[^\d+\-.,'\s]{0,4}\s?)(?P<number>[+-]?\d.*?)(?P<after>\s?[^\d\s.,']{0,4})",
        cell,
        re.ASCII,
    )
    if found is None or not is_unit(found["before"].strip(), "before") or not is_unit(found["after"].strip(), "after"):
        return None
    return found["before"].strip(), found["after"].strip()


def is_unit(text, side):
    """A sign of a currency or per cent, a currency's three capitals, or after a number a short word."""
    if len(text) == 1 and (text == "%" or unicodedata.category(text) == "Sc"):
        return True
    return not text or re.fullmatch("[A-Z]{3}", text) is not None or (side == "after" and text.isalpha())


def unit_of(cells):
    """The one unit that every cell has, before or after its number, or the empty text."""
    found = {unit_parts(cell) for cell in cells if len(cell) <= LONGEST_NUMBER}
    if len(found) != 1 or None in found:
        return ""
    before, after = found.pop()
    return before or after if not (before and after) else ""


def without_unit(cell, unit):
    """The cell without its unit: -$5 is -5 and $-5 too."""
    if not unit:
        return cell
    cell = cell.translate(BLANKS)
    sign = cell[:1] if cell[:1] in ("+", "-") else ""
    bare = cell[len(sign) :].removeprefix(unit).removesuffix(unit).strip()
    return sign + bare
