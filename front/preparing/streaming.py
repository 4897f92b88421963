"""A file of people as a stream of rows: however many they are, only a piece of it is in memory. It says how far it is."""

import csv
import io
import itertools
import os
import sys
import time

from .faults import Fault, shown
from .reading import SEPARATORS, Layout, decode, is_empty, titles_of, without_separator_line
from .workbooks import WORKBOOK

PIECE = 1 << 18             # bytes that are read at once
PIECE_OF_ROWS = 1 << 10     # that are read at once, and after which the clock is looked at
FIRST = 1 << 22             # bytes, by which it is found out how a file is read
PATIENCE = 2                # seconds between two words on how far it is
LONGEST_CELL = 1 << 20


def first_piece(path):
    """The first rows of a file, up to a line end that isn't within a quoted cell, by an even number of quotes before it."""
    with open(path, "rb") as file:
        data = file.read(FIRST)
    end = len(data)
    while (end := data.rfind(b"\n", 0, end)) > 0:
        if data.count(b'"', 0, end) % 2 == 0:
            # After a line feed of UTF-16 a byte 0 may belong to it.
            return data[: end + 2] if data[:2] == b"\xff\xfe" else data[: end + 1]
    raise Fault(f"{path} has no line end in its first {FIRST:,} bytes")


class Counted(io.RawIOBase):
    """The bytes of a file, counted as they are read."""

    def __init__(self, path):
        self.file = open(path, "rb", buffering=0)
        self.size, self.read_bytes = os.fstat(self.file.fileno()).st_size, 0

    def readable(self):
        return True

    def readinto(self, piece):
        number = self.file.readinto(piece)
        self.read_bytes += number
        return number

    def close(self):
        self.file.close()
        super().close()


class People:
    """The rows of a file by the choices: an iterator of each row's number, counted with the header as row 1, and its cells.

    A row of another length, bytes of another encoding and an open quote are a Fault. Lines with nothing in them are given too.
    """

    def __init__(self, path, choices):
        self.path, self.choices, self.number = path, choices, 0
        self.counted = Counted(path)
        self.began = self.said = time.monotonic()

    def __enter__(self):
        return self

    def __exit__(self, *_):
        self.counted.close()
        if self.said > self.began:
            print(f"read: {self.number:,} rows in {time.monotonic() - self.began:,.0f} s", file=sys.stderr)

    def __iter__(self):
        csv.field_size_limit(LONGEST_CELL)
        mark = SEPARATORS[self.choices["separator"]]
        try:
            yield from self.rows(csv.reader(self.texts(), delimiter=mark, strict=True, skipinitialspace=mark != " "))
        except csv.Error as error:
            raise Fault(f"{self.path}, after row {self.number:,}: the quotes don't fit, or a cell is too long ({error})") from None
        except UnicodeError as error:
            raise Fault(f"{self.path}, after row {self.number:,}: bytes that aren't {self.choices['encoding']} ({error})") from None

    def texts(self):
        """The lines of the text, without a spreadsheet's first line on the separator."""
        file = self.opened()
        text, _ = without_separator_line(file.readline())
        return itertools.chain([text] if text else [], file)

    def opened(self):
        """The file as text; of a workbook its sheet, which is in memory."""
        encoding = self.choices["encoding"]
        if encoding.partition(":")[0] == WORKBOOK:
            return io.StringIO(decode(self.counted.file.read(), encoding), newline="")
        try:
            return io.TextIOWrapper(io.BufferedReader(self.counted, PIECE), encoding=encoding, newline="")
        except LookupError:
            raise Fault(f"{shown(encoding)} isn't an encoding that is known here") from None

    def rows(self, reader):
        """The rows after the header, which has to be that of the choices."""
        numbered, width = enumerate(reader, 1), None
        for self.number, cells in numbered:
            width = self.header(cells)
            if width is not None:
                break
        else:
            raise Fault(f"{self.path} has no header")
        while piece := list(itertools.islice(numbered, PIECE_OF_ROWS)):
            for number, cells in piece:
                if len(cells) != width and not is_empty(cells):
                    raise Fault(f"{self.path}: row {number:,} has {len(cells):,} cells and the header has {width:,}")
                yield number, cells
            self.number = number
            self.say_how_far()

    def header(self, cells):
        """The number of titles, once they are those of the choices; None of a line with nothing in it."""
        if is_empty(cells):
            return None
        titles = titles_of(cells, Layout(self.choices["separator"], self.choices["untitled"]))
        if titles != [column["from"] for column in self.choices["columns"]]:
            raise Fault(
                f"the titles of {self.path} aren't those that the choices were made for: {', '.join(shown(title) for title in titles[:40])}"
            )
        return len(titles)

    def say_how_far(self):
        """Says how much of the file is read, every other second."""
        now = time.monotonic()
        if now - self.said >= PATIENCE:
            self.said = now
            print(f"{100 * self.counted.read_bytes // max(self.counted.size, 1)} % read, {self.number:,} rows", file=sys.stderr, flush=True)
