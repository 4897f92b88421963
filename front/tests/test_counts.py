"""What reads public columns beside the program, over lines that stand for people: six lines worked out by hand.

/usr/bin/python3 -m unittest test_counts
"""

import json
import shutil
import subprocess
import unittest

from table_kit import FRONT, TableTest

import doctor
from asking.questions import Unclear, parse
from asking.replies import rows_of
from asking.tables import cells_to_ask
from doorway.asked import Questions
from planning.columns import Columns

COLUMNS = {"dept": "text", "age": "number", "people": "count", "pay": "sum", "best": "max", "wave": "number"}
SCHEMA = json.dumps({"columns": [{"name": name, "is": kind} for name, kind in COLUMNS.items()]})
PUBLIC = "dept,age,people,wave\nQA,30,3,1\nQA,40,1,1\nOPS,30,2,1\nOPS,40,1,1\nDEV,30,5,1\nDEV,40,1,1\n"
WHOLE = "dept,age,people,pay,best,wave\nQA,30,3,300,9,1\nQA,40,1,200,7,1\nOPS,30,2,500,9,1\nOPS,40,1,150,4,1\nDEV,30,5,900,5,1\nDEV,40,1,250,2,1\n"


class Counts(TableTest):
    def test_groups_in_a_terminal_are_sized_by_people(self):
        rows = rows_of(PUBLIC, COLUMNS)
        self.assertEqual([row["people"] for row in rows], [3, 1, 2, 1, 5, 1])
        publics = {name: kind for name, kind in COLUMNS.items() if kind not in ("sum", "max")}
        cells = cells_to_ask(parse("totals pay by dept where age <= 40", COLUMNS), rows, publics)
        self.assertEqual({cell.values: cell.rows for cell in cells}, {("DEV",): 6, ("OPS",): 3, ("QA",): 4})

    def test_a_terminal_says_how_people_are_counted(self):
        for text, due in (("sum people", "ask count, which adds it up"), ("totals pay by people", "groups are made by one of dept, age, wave")):
            with self.subTest(text), self.assertRaises(Unclear) as raised:
                parse(text, COLUMNS)
            self.assertIn(due, str(raised.exception))

    def test_a_condition_on_the_count_isnt_read_by_the_door_nor_the_plan(self):
        questions, columns = Questions(SCHEMA, PUBLIC.encode()), Columns(SCHEMA, PUBLIC.encode())
        self.assertIsNone(questions.rows_of("people >= 2"))
        self.assertEqual((questions.rows_of("wave = 1 and age = 40"), columns.rows_where("age = 40 and wave = 1")), (0b101010, 0b101010))

    def test_a_plan_counts_people_where_it_wants_enough_of_them(self):
        columns = Columns(SCHEMA, PUBLIC.encode())
        self.assertEqual([columns.people(rows) for rows in (0, 1, 0b11, columns.everyone)], [0, 3, 4, 13])
        self.assertTrue(columns.are_enough(columns.rows_where("age = 40"), 3))
        self.assertFalse(columns.are_enough(columns.rows_where("dept = 'QA' and age = 40"), 2))
        self.assertFalse(columns.are_enough(columns.rows_where("not (dept = 'QA' and age = 40)"), 2))
        self.assertTrue(columns.are_enough(columns.rows_where("dept = 'QA' and age = 30"), 3))

    def test_the_doctor_wants_the_count_in_the_public_folder(self):
        public = self.folder / "public"
        public.mkdir()
        for folder, table in ((self.folder, WHOLE), (public, PUBLIC)):
            (folder / "schema.json").write_text(SCHEMA)
            (folder / "table.csv").write_text(table)
        self.assertIn("the public columns of the table, and nothing else", str(list(doctor.of_public(self.folder, public, None))))
        (public / "table.csv").write_text("\n".join(",".join(cell for place, cell in enumerate(line.split(",")) if place != 2) for line in PUBLIC.split("\n")))
        self.assertIn("not the public columns", str(list(doctor.of_public(self.folder, public, None))))

    @unittest.skipUnless(shutil.which("node"), "no Chromium: nor another reader of the page's script")
    def test_the_page_counts_people_and_finds_each_cell(self):
        script = (FRONT / "page/tables.js").read_text() + f"""
const table = new Table(""), files = {{"schema.json": {json.dumps(SCHEMA)}, "table.csv": {json.dumps(PUBLIC)}}};
table.file = async name => files[name] || "";
table.load().then(() => {{
  chosen = [table];
  console.log(JSON.stringify([rowsInAll(), [...valuesOf("dept")], [...valuesOf("wave")], publics().map(column => column.name), table.cellOf(table.rows[2], "wave")]));
}});
let chosen = [];
"""
        run = subprocess.run(["node", "-e", script], capture_output=True, text=True)
        self.assertEqual(run.returncode, 0, run.stderr)
        self.assertEqual(json.loads(run.stdout), [13, [["QA", 4], ["OPS", 3], ["DEV", 6]], [["1", 13]], ["dept", "age", "wave"], "1"])


if __name__ == "__main__":
    unittest.main()
