"""Reads a CSV file as people have it into titles and rows of text, without changing a cell.

The encoding and the separator are either given or found out. If the bytes allow more than one reading, nothing is
chosen: a Fault says which ones there are and how to name one.
"""

import csv
import dataclasses
import io
import re

from .faults import Fault, counted, listed, shown
from .workbooks import WORKBOOK, is_workbook, need_text, sheet_of, text_of

MOST_BYTES = 64 * 1024 * 1024
MOST_COLUMNS = 1024
LONGEST_TITLE = 1000
SEPARATORS = {"comma": ",", "semicolon": ";", "tab": "\t", "bar": "|", "blank": " "}
NAME_OF_MARK = {mark: name for name, mark in SEPARATORS.items()}


@dataclasses.dataclass(frozen=True)
class Layout:
    """How a text is cut into cells: the separator's name, and at which end a column has no title, if one has none."""

    separator: str
    untitled: str = "none"


@dataclasses.dataclass
class Table:
    """Titles and rows of text. A row has its number as a spreadsheet counts: the header is row 1."""

    titles: list
    rows: list
    empty: int


def load(path):
    """The bytes of a file of at most 64 MiB."""
    with open(path, "rb") as file:
        data = file.read(MOST_BYTES + 1)
    if len(data) > MOST_BYTES:
        raise Fault(f"{path} has more than {MOST_BYTES:,} bytes, which is the most that is read")
    if not data.strip():
        raise Fault(f"{path} is empty")
    return data


def encoding_of(data, sheet=None):
    """The encoding that the bytes show, and a sentence about it. A sheet of a workbook is one too."""
    if is_workbook(data):
        name = sheet_of(data, sheet)
        return f"{WORKBOOK}:{name}", f"an Excel workbook, its sheet {shown(name)}"
    if sheet is not None:
        raise Fault("a sheet is of a workbook, and this file is none")
    need_text(data)
    if data.startswith(b"\xef\xbb\xbf"):
        return "utf-8-sig", "UTF-8, with a mark at its front"
    if data[:2] in (b"\xff\xfe", b"\xfe\xff"):
        return "utf-16", "UTF-16, by its first two bytes"
    try:
        data.decode("utf-8")
    except UnicodeDecodeError as error:
        need_no_utf_8(data, error.start)
        return "cp1252", "not UTF-8; read as Windows-1252, which has Latin-1 in it. Look at the accents in what follows"
    return "utf-8", "UTF-8"


def need_no_utf_8(data, place):
    """A Fault for bytes of which most are UTF-8: one wrong byte may not change how all others are read."""
    letters = [letter for letter in data.decode("utf-8", errors="replace") if letter > "\x7f"]
    wrong = letters.count("\ufffd")
    if wrong * 2 < len(letters):
        raise Fault(
            f"byte {place:,} of the file ({data[place]:02x}, hexadecimal) isn't UTF-8, though most letters of the file"
            " are: mend it, or name the file's encoding, as in encoding=cp1252"
        )


def decode(data, encoding):
    """The text of the bytes, by an encoding that Python knows by name, or of a sheet of a workbook."""
    kind, _, sheet = encoding.partition(":")
    if kind == WORKBOOK and is_workbook(data):
        return text_of(data, sheet_of(data, sheet))
    need_text(data)
    try:
        text = data.decode(encoding)
    except UnicodeDecodeError as error:
        raise Fault(
            f"byte {error.start:,} of the file ({data[error.start]:02x}, hexadecimal) isn't {encoding}: name the file's"
            " encoding, as in encoding=cp850"
        ) from None
    except (LookupError, ValueError):
        raise Fault(f"{shown(encoding)} isn't an encoding that is known here") from None
    if "\0" in text:
        line = text.count("\n", 0, text.index("\0")) + 1
        raise Fault(
            f"line {line:,} has a byte 0 in it: the file isn't text, or is UTF-16 without a mark, which"
            " encoding=utf-16-le reads"
        )
    return text


def without_separator_line(text):
    """The text after a spreadsheet's first line, sep=;, and the separator that it names, if it is there."""
    found = re.match(r"\ufeff?sep=([,;\t| ])\r?\n", text, re.IGNORECASE)
    if found is None:
        return text, None
    return text[found.end() :], NAME_OF_MARK[found[1]]


def records(text, separator):
    """Each record with its number, from 1. A quote that isn't closed, or closed in the middle of a cell, is a Fault."""
    number, mark = 0, SEPARATORS[separator]
    csv.field_size_limit(MOST_BYTES)
    # Blanks between a separator and a quote would make the quote a part of the cell.
    blanks = mark != " " and re.search(re.escape(mark) + ' +"', text) is not None
    reader = csv.reader(io.StringIO(text, newline=""), delimiter=mark, strict=True, skipinitialspace=blanks)
    try:
        for number, cells in enumerate(reader, 1):
            yield number, cells
    except csv.Error as error:
        why = (
            "a quote is opened and never closed"
            if "end of data" in str(error)
            else f"a quoted cell goes on after its quote ({error})"
        )
        raise Fault(f"row {number + 1:,}: {why}") from None


def is_empty(cells):
    return not any(cell.strip() for cell in cells)


def layout_with(text, separator):
    """The layouts that this separator allows: every row has as many cells as the header, or one more."""
    header, lengths, last_cells = None, set(), False
    for _, cells in records(text, separator):
        if is_empty(cells):
            continue
        if header is None:
            header = len(cells)
            continue
        lengths.add(len(cells))
        last_cells = last_cells or bool(cells[-1].strip())
    if header is None or header < 2:
        return []
    if lengths <= {header}:
        return [Layout(separator)]
    if lengths != {header + 1}:
        return []
    return [Layout(separator, "first")] + ([] if last_cells else [Layout(separator, "last")])


def layouts(text):
    """Every way in which the text is a table of two columns or more, and why the separators that fail do so."""
    fits, faults = [], {}
    for separator in SEPARATORS:
        try:
            fits += layout_with(text, separator)
        except Fault as fault:
            faults[separator] = str(fault)
    return fits, faults


def uneven_rows(text, separator):
    """A sentence for each row whose number of cells isn't that of the titles."""
    filled = ((number, cells) for number, cells in records(text, separator) if not is_empty(cells))
    _, header = next(filled, (0, []))
    return [
        f"row {number:,} has {counted(len(cells), 'cell')} and the header has {len(header):,}"
        for number, cells in filled
        if len(cells) != len(header)
    ]


def why_none_fits(text, faults):
    """A Fault for a text that no separator makes a table of: what goes wrong with the likeliest one."""
    if not text.strip('\ufeff\r\n "' + "".join(SEPARATORS.values())):
        return Fault("nothing stands in the file but separators")
    first_line = text.lstrip("\ufeff\r\n ").split("\n", 1)[0]
    likeliest = max(SEPARATORS, key=lambda name: (first_line.count(SEPARATORS[name]), name != "blank"))
    if SEPARATORS[likeliest] not in first_line:
        return Fault(
            "the first line has one cell, whatever the separator: comma, semicolon, tab, bar and blank were tried"
        )
    why = faults.get(likeliest) or listed(uneven_rows(text, likeliest))
    return Fault(f"no separator gives every row as many cells as the header. With the likeliest, {likeliest}:\n{why}")


def choose_layout(text, separator=None, untitled=None):
    """The one layout that fits the text and what was given. Several, or none, are a Fault that says which."""
    if separator is not None and separator not in SEPARATORS:
        raise Fault(f"{shown(separator)} isn't a separator: it is one of {', '.join(SEPARATORS)}")
    fits, faults = layouts(text)
    wanted = [
        layout for layout in fits if separator in (None, layout.separator) and untitled in (None, layout.untitled)
    ]
    if len(wanted) == 1:
        return wanted[0]
    if wanted:
        ways = "; ".join(
            f"separator={layout.separator}" + (f" untitled={layout.untitled}" if layout.untitled != "none" else "")
            for layout in wanted
        )
        raise Fault(f"the file can be cut into cells in more than one way. Look again with one of: {ways}")
    if separator is not None:
        why = faults.get(separator) or listed(uneven_rows(text, separator)) or "there is no header of two cells or more"
        raise Fault(f"with the separator {separator}:\n{why}")
    raise why_none_fits(text, faults)


def read_rows(text, layout):
    """The table of a text by a layout that may not fit: every row that has another number of cells is named then."""
    rows, header, empty = [], None, 0
    for number, cells in records(text, layout.separator):
        if is_empty(cells):
            empty += 1
        elif header is None:
            header = cells
        else:
            rows.append((number, cells))
    titles = titles_of(header or [], layout)
    uneven = [
        f"row {number:,} has {counted(len(cells), 'cell')} and the header has {len(titles):,}"
        for number, cells in rows
        if len(cells) != len(titles)
    ]
    if uneven:
        raise Fault(listed(uneven))
    if not rows:
        raise Fault("the file has a header and no row")
    return Table(titles, rows, empty)


def titles_of(header, layout):
    """A title for each column, the empty text for one that has none. Too many, or one that is too long, is a Fault."""
    titles = {"none": header, "first": [""] + header, "last": header + [""]}[layout.untitled]
    if not 2 <= len(titles) <= MOST_COLUMNS:
        raise Fault(f"the header has {counted(len(titles), 'cell')}, and 2 to {MOST_COLUMNS:,} are read")
    titles = [title.strip().lstrip("\ufeff") for title in titles]
    long = max(titles, key=len)
    if len(long) > LONGEST_TITLE:
        raise Fault(f"a title has {len(long):,} characters, and at most {LONGEST_TITLE:,} are read: {shown(long)}")
    return titles
