"""`sql`: the query by which an office's own engine makes the lines, and two more that say what it leaves out and what isn't whole.

Columns of the office's table have the titles of the file that the choices were made for. What an engine would do silently is written out:

- sums are of exact numbers, never of binary ones, and never of 64 bits that wrap;
- NULL and the cells that mean that nothing is known are left out by the WHERE where the choices drop them, and counted by the second query;
- texts are cast, trimmed and compared byte by byte, whatever collation or padding their column has;
- numbers are cast before the greatest or the least is taken, in case that their column is of text;
- what has more decimals than are kept is counted by the third query: the lines are right only if it says 0;
- the lines stand in the order of their bytes, so that two engines give one file.
"""

import re

from . import choices as choosing
from .cells import FORMS
from .choices import COUNT, PUBLIC, SECRET
from .coarsening import OTHERS, read_bands
from .faults import Fault, shown
from .making import columns_to_write, need_columns

TABLE = re.compile(r'[A-Za-z_]\w*(?:\.[A-Za-z_]\w*){0,2}', re.ASCII)


class Dialect:
    """How an engine writes what the query needs. `exact` is the type in which numbers are read and added up, `whole` that in which they are told, and
    `key` that of public numbers, which engines group fastest."""

    exact = whole = "numeric"
    key, text = "bigint", "text"
    binary = ""

    def name(self, title):
        return '"' + title.replace('"', '""') + '"'

    def literal(self, value):
        return "'" + value.replace("'", "''") + "'"

    def cell(self, title):
        """A cell as text without the blanks around it, compared byte by byte."""
        return f"trim(CAST({self.name(title)} AS {self.text})){self.binary}"

    def number(self, title):
        """A cell as an exact number."""
        return f"CAST({self.name(title)} AS {self.exact})"

    def floor(self, number):
        return f"floor({number})"

    def to_whole(self, number):
        return f"CAST({number} AS {self.whole})"

    def to_key(self, number):
        return f"CAST({number} AS {self.key})"

    def total(self, number):
        return self.to_whole(f"sum({number})")

    def date(self, title):
        raise NotImplementedError

    def written(self, select):
        """The statement that writes what is selected to a file."""
        raise NotImplementedError

    def script(self, select, left_out, not_whole):
        return f"{self.written(select)}\n{left_out};\n{not_whole};"


class PostgreSQL(Dialect):
    exact, whole, binary = "numeric", "numeric(38,0)", ' COLLATE "C"'

    def date(self, title):
        return f"CAST(to_char(CAST({self.name(title)} AS date), 'YYYYMMDD') AS integer)"

    def written(self, select):
        one_line = " ".join(select.split("\n"))
        return f"\\copy ({one_line}) TO 'table.csv' WITH (FORMAT csv, HEADER, ENCODING 'UTF8')"


class DuckDB(Dialect):
    exact, whole, text = "decimal(38,12)", "hugeint", "varchar"

    def number(self, title):
        return f"CAST(CAST({self.name(title)} AS varchar) AS {self.exact})"

    def date(self, title):
        return f"CAST(strftime(CAST({self.name(title)} AS date), '%Y%m%d') AS integer)"

    def written(self, select):
        return f"COPY ({select}) TO 'table.csv' (FORMAT csv, HEADER, DELIMITER ',');"


class SQLite(Dialect):
    """It has no exact decimals: a number is scaled while it is read, and rounded to the nearest whole one. Its columns may hold anything."""

    exact, whole, binary = "numeric", "integer", " COLLATE BINARY"

    def floor(self, number):
        return f"(CAST({number} AS integer) - ({number} < CAST({number} AS integer)))"

    def to_whole(self, number):
        return f"CAST(round({number}) AS integer)"

    to_key = to_whole

    def total(self, number):
        return f"sum({self.to_whole(number)})"

    def date(self, title):
        return f"CAST(replace(substr(CAST({self.name(title)} AS text), 1, 10), '-', '') AS integer)"

    def written(self, select):
        return f".mode csv\n.headers on\n.once table.csv\n{select};"


class Spark(Dialect):
    exact, whole, text = "decimal(38,12)", "decimal(38,0)", "string"

    def name(self, title):
        return "`" + title.replace("`", "``") + "`"

    def literal(self, value):
        return "'" + value.replace("\\", "\\\\").replace("'", "\\'") + "'"

    def date(self, title):
        return f"CAST(date_format(CAST({self.name(title)} AS date), 'yyyyMMdd') AS int)"

    def written(self, select):
        hinted = select.replace("SELECT", "SELECT /*+ COALESCE(1) */", 1)
        return f"INSERT OVERWRITE DIRECTORY 'table' USING csv OPTIONS (header 'true', lineSep '\\n')\n{hinted};"


DIALECTS = {"postgresql": PostgreSQL(), "duckdb": DuckDB(), "sqlite": SQLite(), "spark": Spark()}


def say_sql(choices_path, name, table="people"):
    """Prints the queries for an engine, over the office's table of people."""
    choices = choosing.read(choices_path)
    choosing.need_decided(choices)
    if choices.get(COUNT) is None:
        raise Fault("no column of counts is chosen: count=people, say, names it")
    if name not in DIALECTS:
        raise Fault(f"{shown(name)} isn't one of {', '.join(DIALECTS)}")
    if not TABLE.fullmatch(table):
        raise Fault(f"{shown(table)} isn't the name of a table: letters, digits and _, maybe with a schema and a dot before it")
    columns = columns_to_write(choices)
    need_columns(columns)
    dialect = DIALECTS[name]
    print(dialect.script(*queries(columns, dialect, table)))


def queries(columns, dialect, table):
    """Three queries: that which makes the lines, and those that count the people who are left out, and the numbers that aren't whole as they are kept."""
    kept = " AND ".join(condition for column in columns if column.chosen and not column.marks for condition in kept_if(column, dialect)) or "1 = 1"
    public = [(column, value_of(column, dialect)) for column in columns if column.kind in PUBLIC and column.chosen]
    chosen = ", ".join(f"{expression} AS {dialect.name(column.name)}" for column, expression in selected(columns, dialect))
    group = ", ".join(expression for _, expression in public)
    select = f"SELECT {chosen}\nFROM {table}\nWHERE {kept}" + (f"\nGROUP BY {group}\nORDER BY {group}" if public else "")
    left_out = f"SELECT count(*) AS left_out FROM {table} WHERE NOT ({kept})"
    odd = " OR ".join(fine for column in columns if column.chosen and not column.marks for fine in odd_if(column, dialect)) or "1 = 0"
    return select, left_out, f"SELECT count(*) AS not_whole FROM {table} WHERE ({kept}) AND ({odd})"


def selected(columns, dialect):
    """What is selected for each column, in their order."""
    for column in columns:
        if column.kind == COUNT:
            yield column, "count(*)"
        elif column.chosen is None:
            yield column, "1"
        elif column.kind == "sum":
            yield column, dialect.total(scaled(number_of(column.chosen, dialect), column.chosen))
        elif column.kind in SECRET:
            yield column, dialect.to_whole(f"{column.kind}({scaled(number_of(column.chosen, dialect), column.chosen)})")
        else:
            yield column, value_of(column, dialect)


def value_of(column, dialect):
    """A public cell as it stands in the table."""
    chosen = column.chosen
    if column.marks is not None:
        return f"CASE WHEN {present(chosen, dialect)} THEN 1 ELSE 0 END"
    if column.kind == "text":
        return text_of(chosen, dialect)
    number = banded(chosen, dialect) if chosen["bands"] else dialect.to_key(rounded(chosen, dialect))
    return f"CASE WHEN {present(chosen, dialect)} THEN {number} ELSE 0 END" if chosen["missing"] == "mark" else number


def text_of(chosen, dialect):
    """A text, or the name that it is joined under."""
    cell = dialect.cell(chosen["from"])
    if chosen["missing"] == "keep":
        cell = f"coalesce({cell}, '')"
    joins = chosen["join"] or {}
    whens = "".join(
        f" WHEN {cell} IN ({', '.join(dialect.literal(value) for value in values if value != OTHERS)}) THEN {dialect.literal(name)}"
        for name, values in joins.items()
        if set(values) != {OTHERS}
    )
    other = next((dialect.literal(name) for name, values in joins.items() if OTHERS in values), cell)
    return f"(CASE{whens} ELSE {other} END){dialect.binary}" if whens else other


def number_of(chosen, dialect):
    """A cell as an exact number of the file's units; a date as 20170131."""
    return dialect.date(chosen["from"]) if FORMS[chosen["written as"]].kind == "date" else dialect.number(chosen["from"])


def rounded(chosen, dialect):
    """A public number in steps of its column's decimals, rounded as it is chosen."""
    number = scaled(number_of(chosen, dialect), chosen)
    return dialect.floor({"down": number, "nearest": f"{number} + 0.5"}[chosen["rounded"]]) if chosen["rounded"] in ("down", "nearest") else number


def scaled(number, chosen):
    """A number times ten to the power of the decimals that are kept."""
    return f"{number} * {10 ** chosen['decimals']}" if chosen["decimals"] else number


def banded(chosen, dialect):
    """The number that the band of a cell begins with."""
    number, bands = number_of(chosen, dialect), read_bands(chosen["bands"])
    if bands.width:
        if isinstance(dialect, SQLite):
            return f"{dialect.floor(f'({number} * 1.0 / {bands.width})')} * {bands.width}"
        return dialect.to_key(f"{dialect.floor(f'{number} / {bands.width}')} * {bands.width}")
    whens = "".join(f" WHEN {number} >= {start} THEN {start}" for start in reversed(bands.starts))
    return f"CASE{whens} END"


def present(chosen, dialect):
    """A condition for cells that aren't missing."""
    cell, missing = dialect.cell(chosen["from"]), chosen["missing is"] or []
    needs_text = "" in missing or isinstance(dialect, SQLite) and chosen["is"] != "text"
    words = [dialect.literal(one) for one in missing if one]
    others = [f"{cell} <> ''"] * needs_text + [f"{cell} NOT IN ({', '.join(words)})"] * bool(words)
    return " AND ".join([f"{dialect.name(chosen['from'])} IS NOT NULL", *others])


def kept_if(column, dialect):
    """The conditions for a row to be kept, of one column."""
    chosen = column.chosen
    if chosen["missing"] in ("keep", "mark"):
        return []
    starts = read_bands(chosen["bands"]).starts if chosen["bands"] else ()
    return [present(chosen, dialect)] + ([f"{number_of(chosen, dialect)} >= {starts[0]}"] if starts else [])


def odd_if(column, dialect):
    """The conditions that a number isn't whole as it is kept, or isn't a number, of one column."""
    chosen = column.chosen
    if column.kind == "text" or FORMS[chosen["written as"]].kind == "date":
        return []
    cell = dialect.cell(chosen["from"])
    odd = [f"{cell} GLOB '*[^0-9.+-]*'"] if isinstance(dialect, SQLite) else []
    odd += [f"{number_of(chosen, dialect)} IS NULL"] if isinstance(dialect, Spark) else []
    if chosen["bands"] or chosen["rounded"] in ("down", "nearest"):
        return odd
    number = scaled(number_of(chosen, dialect), chosen)
    return odd + [f"abs({number} - round({number})) > 0.000001"]
