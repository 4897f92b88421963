"""What a file is that isn't text, and an Excel workbook as text.

A workbook is read with python3-openpyxl, if it is there: one sheet, its cells as a spreadsheet shows them without a form. It is cut into cells and
read as a CSV file from there on.
"""

import csv
import datetime
import io
import zipfile

from .faults import Fault, shown

WORKBOOK = "xlsx"
MOST_BYTES = 512 * 1024 * 1024      # of a workbook that is unpacked
MOST_TEXT = 64 * 1024 * 1024
DIGITS = 15                         # that a spreadsheet shows of a number
# The first bytes of files that tables are kept in, and what to do with them.
KINDS = (
    (b"\xd0\xcf\x11\xe0", "an old Excel workbook (.xls)", "save it as .xlsx or as CSV"),
    (b"$FL2", "a file of SPSS", "save it as CSV"),
    (b"$FL3", "a file of SPSS", "save it as CSV"),
    (b"<stata_dta>", "a file of Stata", "save it as CSV"),
    (b"PAR1", "a Parquet file", "save it as CSV"),
    (b"RDX", "a file of R", "write it with write.csv"),
    (b"\x1f\x8b", "a compressed file, as R's .rds is", "unpack it, or write it with write.csv"),
    (b"%PDF", "a PDF", "a table has to be saved as CSV"),
)


def is_packed(data):
    return data.startswith(b"PK\x03\x04")


def need_text(data):
    """A Fault for a file that is no text, by its first bytes: what it is, and what to do."""
    for start, kind, do in KINDS:
        if data.startswith(start):
            raise Fault(f"the file is {kind}: {do}")
    if is_packed(data):
        raise Fault("the file is packed, as a workbook is" + ("" if "xl/workbook.xml" in members(data) else ", and no .xlsx: save the table as CSV"))


def members(data):
    """The names of the files in a packed one."""
    try:
        with zipfile.ZipFile(io.BytesIO(data)) as packed:
            if sum(info.file_size for info in packed.infolist()) > MOST_BYTES:
                raise Fault(f"the file has more than {MOST_BYTES:,} bytes when it is unpacked, which is the most that is read")
            return packed.namelist()
    except zipfile.BadZipFile:
        raise Fault("the file is packed, and broken") from None


def is_workbook(data):
    return is_packed(data) and "xl/workbook.xml" in members(data)


def sheet_of(data, wanted=None):
    """The name of the sheet that is read: the one that is wanted, or the only one that has something in it."""
    book = opened(data, True)
    names = [sheet.title for sheet in book.worksheets]
    if wanted is not None:
        if wanted not in names:
            raise Fault(f"the workbook has no sheet {shown(wanted)}: there are {', '.join(map(shown, names))}")
        return wanted
    filled = [sheet.title for sheet in book.worksheets if any(value is not None for row in sheet.iter_rows(values_only=True) for value in row)]
    if len(filled) != 1:
        ways = "; ".join(f"sheet={name}" for name in filled)
        raise Fault(f"the workbook has several sheets. Look again with one of: {ways}" if filled else "the workbook has nothing in it")
    return filled[0]


def opened(data, values):
    """The workbook, with the values of its formulas or with the formulas themselves."""
    try:
        import openpyxl
    except ImportError:
        raise Fault(
            "the file is an Excel workbook, which is read with python3-openpyxl, and that isn't installed: install it, or save the sheet as CSV"
        ) from None
    try:
        return openpyxl.load_workbook(io.BytesIO(data), read_only=True, data_only=values)
    except Exception as error:              # whatever a broken workbook makes of it
        raise Fault(f"the workbook can't be read: {type(error).__name__}: {error}") from None


def text_of(data, sheet):
    """The sheet as CSV text. A formula without a value is a Fault."""
    need_values(data, sheet)
    rows = [[cell_text(value) for value in row] for row in opened(data, True)[sheet].iter_rows(values_only=True)]
    width = max((place + 1 for row in rows for place, cell in enumerate(row) if cell), default=0)
    text = io.StringIO(newline="")
    csv.writer(text, lineterminator="\n").writerows([*row, *[""] * width][:width] for row in rows)
    if text.tell() > MOST_TEXT:
        raise Fault(f"the sheet has more than {MOST_TEXT:,} characters, which is the most that is read")
    return text.getvalue()


def need_values(data, sheet):
    """A Fault if a cell has a formula whose value isn't in the file, as in one that a program wrote."""
    for formulas, values in zip(opened(data, False)[sheet].iter_rows(), opened(data, True)[sheet].iter_rows(values_only=True)):
        for cell, value in zip(formulas, values):
            if value is None and cell.data_type == "f":
                raise Fault(f"cell {cell.coordinate} has a formula whose value isn't in the file: open the workbook in a spreadsheet and save it")


def cell_text(value):
    """A cell's value as text: numbers to the 15 digits that a spreadsheet shows, dates as 2017-01-31."""
    if value is None:
        return ""
    if isinstance(value, bool):
        return "TRUE" if value else "FALSE"
    if isinstance(value, float):
        return format(value, f".{DIGITS}g")
    if isinstance(value, datetime.datetime):
        return value.date().isoformat() if value.time() == datetime.time() else value.isoformat(" ", "seconds")
    return str(value)
