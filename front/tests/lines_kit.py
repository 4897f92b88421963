"""Tests of lines that stand for people, and a plain count of what each line has to be."""

import csv
import io
import os
from unittest import mock

from table_kit import TableTest

CHOSEN = ("protect=none", "range=none", "width=none", "reach=none", "count=people")


class LinesTest(TableTest):
    def setUp(self):
        super().setUp()
        self.enterContext(mock.patch.dict(os.environ, {"PATH": ""}))
        os.environ.pop("AUDITOR", None)

    def chosen_for(self, text, *words):
        """Looks at a file with this text and chooses."""
        for status, said in (self.look(text), self.choose(*CHOSEN, *words)):
            self.assertEqual(status, 0, said)

    def condensed(self, text, *words):
        """What is said of lines made from the text with these choices; it has to succeed."""
        self.chosen_for(text, *words)
        status, said = self.make()
        self.assertEqual(status, 0, said)
        return said

    def not_condensed(self, text, *words):
        """What is said if no lines can be made; nothing may be left of it."""
        self.chosen_for(text, *words)
        before = self.names()
        status, said = self.make()
        self.assertEqual((status, self.names()), (1, before), said)
        return said


def text_of(rows):
    """Rows as the text of a CSV file."""
    text = io.StringIO(newline="")
    csv.writer(text, lineterminator="\n").writerows(rows)
    return text.getvalue()
