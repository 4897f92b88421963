"""The public columns of a table, and the rows that a condition is over.

A set of rows is a whole number whose bit k is row k, so that two sets are compared, joined and counted at once.
"""
import csv
import io
import json
import pathlib

from preparing.conditions import asked_rows, read_condition

PUBLIC, COUNT = ("text", "number"), "count"


class Columns:
    """The schema and the public rows that questions are over. `kinds` has the kind of each column by name, `rows` a dict for each row."""

    def __init__(self, schema, table):
        schema = json.loads(schema)
        self.kinds = {column["name"]: column["is"] for column in schema["columns"]}
        self.publics = {name: kind for name, kind in self.kinds.items() if kind in PUBLIC}
        self.count = next((name for name, kind in self.kinds.items() if kind == COUNT), None)
        csv.field_size_limit(2**24)
        records = csv.DictReader(io.StringIO(table.decode("utf-8-sig"), newline=""))
        self.rows = asked_rows(schema, self.publics, [
            {name: row[name] if kind == "text" else int(row[name]) for name, kind in self.kinds.items() if kind in (*PUBLIC, COUNT)} for row in records])
        self.everyone = (1 << len(self.rows)) - 1
        self._values = {name: self._rows_by_value(name) for name in self.publics}

    def _rows_by_value(self, name):
        found = {}
        for place, row in enumerate(self.rows):
            found[row[name]] = found.get(row[name], 0) | 1 << place
        return dict(sorted(found.items()))

    def values(self, name):
        """The rows of each value of a column, in the values' order."""
        return self._values[name]

    def rows_where(self, where):
        """The rows that a condition is over, or Wrong."""
        return self.rows_of(read_condition(where, self.publics))

    def rows_of(self, holds):
        return sum(1 << place for place, row in enumerate(self.rows) if holds(row))

    def are_enough(self, rows, least):
        """Whether a question over these rows is over so many people, and leaves none out or as many."""
        inside, whole = self.people(rows), self.people(self.everyone)
        return inside >= least and (inside == whole or whole - inside >= least)

    def people(self, rows):
        """How many people some rows stand for: one each, if no column has their number."""
        if self.count is None:
            return rows.bit_count()
        return sum(row[self.count] for place, row in enumerate(self.rows) if rows >> place & 1)


def read_columns(folder):
    """The columns of a folder with schema.json and the public columns as table.csv."""
    folder = pathlib.Path(folder)
    return Columns((folder / "schema.json").read_bytes(), (folder / "table.csv").read_bytes())


def literal(value):
    """A value as it stands in a condition."""
    return str(value) if isinstance(value, int) else "'" + value.replace("'", "''") + "'"


def within(where, part):
    """The condition of a part of the rows that another one is over, as the page and the clients write it."""
    if part == "all":
        return where
    return part if where.strip() == "all" else f"({where}) and {part}"


def line_of(ask, column, where):
    """The line of a question, byte for byte as the page and the clients send it."""
    question = {"ask": ask, "where": where} if column is None else {"ask": ask, "column": column, "where": where}
    return json.dumps(question, ensure_ascii=False, separators=(",", ":")).encode("utf-8", "surrogatepass")
