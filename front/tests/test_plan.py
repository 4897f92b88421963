"""A plan: what it prints is answered by `serve` in that order, most of the weight is in it, and what stands in another's place overlaps nothing."""
import csv
import fractions
import itertools
import json
import pathlib
import random
import re
import shutil
import signal
import subprocess
import sys
import tempfile
import time
import unittest

from kit import AUDITOR, FRONT, PATIENCE, SEED

sys.path.insert(0, str(FRONT))
import demo_table  # noqa: E402

PLAN = str(FRONT / "plan.py")
ORDERS = 12


def question(where, weight=None, ask="sum", column="pay"):
    """A wanted line of JSON."""
    return json.dumps({"ask": ask, "column": column, "where": where, **({"weight": weight} if weight else {})})


def is_pinned(sets, people):
    """Whether sums over these sets give somebody's number: one person alone is a combination of them. By fractions."""
    rows = [[fractions.Fraction(one in those) for one in range(people)] for those in sets]
    done = 0
    for column in range(people):
        found = next((place for place in range(done, len(rows)) if rows[place][column]), None)
        if found is None:
            continue
        rows[done], rows[found] = rows[found], rows[done]
        rows[done] = [number / rows[done][column] for number in rows[done]]
        for place, row in enumerate(rows):
            if place != done and row[column]:
                rows[place] = [one - row[column] * other for one, other in zip(row, rows[done])]
        done += 1
    return any(sum(map(bool, row)) == 1 for row in rows)


class PlanCase(unittest.TestCase):
    def setUp(self):
        self.folder = pathlib.Path(tempfile.mkdtemp(prefix="plan-"))
        self.addCleanup(shutil.rmtree, self.folder)
        self.public = self.folder / "public"
        self.wanted = self.folder / "wanted"

    def table(self, teams, sites=None, protect=()):
        """A row for each letter of `teams`: its team, its place, and a site."""
        schema = {"columns": [{"name": "team", "is": "text"}, {"name": "k", "is": "number"}, {"name": "site", "is": "text"},
                              {"name": "pay", "is": "sum"}, {"name": "bonus", "is": "max"}]}
        if protect:
            schema["protect"] = [{"column": "pay", "where": where} for where in protect]
        self.public.mkdir()
        for folder, width in ((self.folder, 5), (self.public, 3)):
            (folder / "schema.json").write_text(json.dumps(schema))
            with open(folder / "table.csv", "w", newline="") as file:
                rows = ((team, k, (sites or "x" * len(teams))[k], 100 + 7 * k * k, k % 5) for k, team in enumerate(teams))
                csv.writer(file).writerows([["team", "k", "site", "pay", "bonus"][:width], *(row[:width] for row in rows)])
        subprocess.run([AUDITOR, "init"], cwd=self.folder, check=True)

    def office(self):
        """The demo's office of 240 people."""
        demo_table.write(self.folder)
        subprocess.run([AUDITOR, "init"], cwd=self.folder, check=True)

    def plan(self, *lines, words=(), status=0):
        """The questions that are planned, as lines, and what was said."""
        self.wanted.write_text("".join(line + "\n" for line in lines))
        # So many orders, however long a busy machine takes for them.
        words = [*words, *([] if "--seconds" in words else ["--orders", ORDERS, "--seconds", PATIENCE])]
        run = subprocess.run([sys.executable, PLAN, AUDITOR, self.public, self.wanted, *map(str, words)], capture_output=True)
        self.assertEqual(run.returncode, status, run.stderr.decode())
        return run.stdout.splitlines(), run.stderr.decode()

    def serve(self, lines):
        """What the program replies to some lines."""
        run = subprocess.run([AUDITOR, "serve", "--batch", "64"], cwd=self.folder, input=b"".join(line + b"\n" for line in lines),
                             capture_output=True, check=True)
        return [json.loads(reply) for reply in run.stdout.splitlines()]

    def wheres(self, lines):
        return [json.loads(line)["where"] for line in lines]


class Plans(PlanCase):
    def test_serve_answers_each_question_of_a_plan(self):
        self.office()
        planned, said = self.plan("by team, site of sum salary with margins", "by grade of avg sick_days", "by site, grade of sum salary",
                                  "max bonus where all", words=["--merge", "--least", 2])
        sums = [line for line in planned if json.loads(line)["ask"] != "max"]
        self.assertEqual(json.loads(planned[-1])["ask"], "max")
        self.assertGreater(len(sums), 40)
        for line, reply in zip(sums, self.serve(sums)):
            self.assertTrue("sum" in reply or "num" in reply, (line, reply))
        self.assertIn("1 question on maxima or minima stand last", said)

    def test_a_question_is_written_as_the_clients_write_it(self):
        self.office()
        planned, _ = self.plan("by site, team of sum salary with margins where age >= 30", words=["--seconds", 0])
        self.assertIn(b'{"ask":"sum","column":"salary","where":"(age >= 30) and team = \'Support\' and site = \'York\'"}', planned)
        self.assertIn(b'{"ask":"sum","column":"salary","where":"age >= 30"}', planned)

    def test_another_order_than_listed_or_heaviest_first_is_found(self):
        """Of three people everybody's total weighs most, but two totals over two of them, which close it, weigh more."""
        self.table("AAA")
        planned, said = self.plan(question("all", 3), question("k <= 1", 2), question("k >= 1", 2))
        self.assertEqual(sorted(self.wheres(planned)), ["k <= 1", "k >= 1"])
        self.assertIn("2 of 3 questions are answered, 57.1% of the weight", said)
        self.assertIn("line 1: sum pay where all (3 rows)", said)

    def test_the_heaviest_come_first_and_what_depends_on_answers_last(self):
        self.table("AABBBCCCC", "xxxxxyyyy")
        planned, _ = self.plan("max bonus where team = 'C'", "max bonus", question("team = 'C'"), "count", question("all"), question("site = 'x'", 3),
                               question("site = 'y'"))
        self.assertEqual([(json.loads(line)["ask"], json.loads(line)["where"]) for line in planned],
                         [("sum", "all"), ("sum", "team = 'C'"), ("sum", "site = 'y'"), ("sum", "site = 'x'"), ("count", "all"),
                          ("max", "all"), ("max", "team = 'C'")])

    def test_a_protected_total_follows_from_no_plan(self):
        """The totals of all and of both other teams would give the protected one."""
        self.table("AABBBCCCC", protect=["team = 'A'"])
        planned, _ = self.plan(question("team = 'B'", 1), question("team = 'C'", 1), question("all", 9))
        self.assertEqual([list(reply) for reply in self.serve(planned)], [["sum"]] * len(planned))
        self.assertEqual(len(planned), 2)

    def test_no_plan_is_lighter_than_the_best_by_a_point(self):
        """Over tables so small that each choice of questions can be looked at, by fractions."""
        chance = random.Random(SEED)
        for _ in range(4):
            people = 7
            sets = []
            while len(sets) < 9:
                some = frozenset(one for one in range(people) if chance.random() < 0.5)
                if len(some) > 1 and some not in sets:
                    sets.append(some)
            weights = [chance.randrange(1, 10) for _ in sets]
            best = max(sum(weights[place] for place in chosen)
                       for size in range(1, 8) for chosen in itertools.combinations(range(9), size)
                       if not is_pinned([sets[place] for place in chosen], people))
            self.table("A" * people)
            lines = [question(f"k in ({', '.join(map(str, sorted(some)))})", weight) for some, weight in zip(sets, weights)]
            planned, _ = self.plan(*lines, words=["--seconds", PATIENCE, "--orders", 80])
            found = [frozenset(map(int, re.findall(r"\d+", where))) for where in self.wheres(planned)]
            self.assertGreaterEqual(sum(weights[sets.index(some)] for some in found), best - 0.01 * sum(weights))
            self.assertFalse(is_pinned(found, people))
            shutil.rmtree(self.public)
            (self.folder / "answers.journal").unlink()

    def test_a_plan_goes_on_from_a_history(self):
        self.office()
        asked = [json.dumps({"ask": "sum", "column": "salary", "where": where}).encode()
                 for where in ("age >= 30", "team = 'Support' and age >= 31", "team = 'Support' and age >= 30")]
        replies = self.serve(asked)
        transcript = self.folder / "transcript.jsonl"
        transcript.write_bytes(b"".join(line + b"\n" + json.dumps(reply, separators=(",", ":")).encode() + b"\n"
                                        for line, reply in zip(asked, replies)))
        planned, _ = self.plan("by team, site of sum salary with margins where age >= 30", words=["--transcript", transcript])
        self.assertGreater(len(planned), 15)
        self.assertTrue(all("sum" in reply for reply in self.serve(planned)))
        transcript.write_bytes(asked[0] + b'\n{"denied":"unsafe"}\n')
        _, said = self.plan("sum salary where all", words=["--transcript", transcript], status=1)
        self.assertIn("line 2 disagrees, due released", said)


class Merging(PlanCase):
    def test_what_is_left_out_has_a_question_over_more_rows_in_its_place(self):
        """Four teams of one person each: two totals of two stand in their places, and no person is in both."""
        self.table("ABDECCCCC")
        planned, said = self.plan("by team of sum pay", "sum pay where all", words=["--merge"])
        self.assertEqual(self.wheres(planned)[2:], ["team in ('A', 'B')", "team in ('D', 'E')"])
        self.assertEqual(sorted(self.wheres(planned)[:2]), ["all", "team = 'C'"])
        self.assertIn("line 1: sum pay where team = 'B' (1 row); in its place: team in ('A', 'B') (1 more)", said)
        self.assertIn("4 of 4 have another in their place: 2 questions more", said)
        self.assertTrue(all("sum" in reply for reply in self.serve(planned)))

    def test_merged_cells_of_a_table_share_no_row_with_each_other_or_with_an_answered_one(self):
        self.office()
        report = self.folder / "report.jsonl"
        planned, _ = self.plan("by team, grade of sum salary with margins", "by site, age of sum salary", words=["--merge", "--report", report])
        with open(self.public / "table.csv", newline="") as file:
            people = list(csv.DictReader(file))
        lines = [json.loads(line) for line in report.read_text().splitlines()][:-1]
        self.assertGreater(sum("instead" in line for line in lines), 20)
        seen = set()
        for where in self.wheres(planned):
            names, inside = self.by_hand(where, people)
            for person in inside if names else ():
                self.assertNotIn((names, person), seen, where)
                seen.add((names, person))

    def by_hand(self, where, people):
        """The columns of a cell's condition, and its people, by a reader of the test's own."""
        inside, names = range(len(people)), ()
        for part in where.replace("Sales, ", "Sales; ").split(" and ") if where != "all" else ():
            name, _, value = part.partition(" in ") if " in (" in part else part.partition(" = ")
            values = [one.strip("'").replace("''", "'").replace(";", ",") for one in value.strip("()").split(", ")]
            inside = [person for person in inside if people[person][name] in values]
            names += (name,)
        return names, inside

    def test_the_least_size_holds_for_all(self):
        self.table("ABDECCCCC")
        planned, said = self.plan("by team of sum pay", "sum pay where all", words=["--merge", "--least", 4])
        self.assertEqual(sorted(self.wheres(planned)), ["all", "team = 'C'"])
        self.assertIn("where team = 'A' (1 row); it is over fewer than 4 rows, or leaves fewer out", said)


class Words(PlanCase):
    def test_a_bad_line_is_said_with_its_number_and_the_rest_goes_on(self):
        self.table("AABBBCCCC")
        lines = [question("all"), '{"ask"', question("k >= x"), question("k >= 100"), question("all "), "sum bonus where all", "sum nothing",
                 "by team of sum pay with salt", "by pay of sum pay", '["all"]', question("all", ask="count"), "why sum pay where all",
                 question("team = 'A'", -1), "", question("team = 'B'")]
        planned, said = self.plan(*lines, words=["--seconds", 0], status=1)
        self.assertEqual(self.wheres(planned), ["all", "team = 'B'"])
        for line in ("line 2: it isn't JSON", "line 3: the condition 'k >= x' isn't understood from byte 5 on", "line 4: no row satisfies",
                     "line 5: it is doubled: line 1", "line 6: bonus is kept for max", "line 7: there is no column 'nothing'",
                     "line 8: a table is written as", "line 9: pay is secret", "line 10: '[\"all\"]' isn't something to ask",
                     'line 11: "column" is the name of a column, and a count has none', "line 12: would and why", "line 13: the weight '-1' isn't a number above 0"):
            self.assertIn("\n" + line, said)
        self.assertIn("12 lines can't be planned", said)

    def test_a_cell_that_two_tables_have_is_asked_once(self):
        self.table("AABBBCCCC", "xyxyxyxyx")
        planned, _ = self.plan("by team of sum pay with margins", "by site of sum pay with margins", words=["--seconds", 0])
        self.assertEqual(len(planned), len(set(planned)))
        self.assertEqual(self.wheres(planned).count("all"), 1)

    def test_what_cant_begin_says_why(self):
        self.table("AABB")
        for words, status, why in ((["--transcript", self.folder / "nothing"], 1, "nothing: No such file"),
                                   (["--report", self.folder / "nothing" / "report"], 1, "report: No such file"),
                                   (["--seconds", "-1"], 2, "at least 0")):
            self.assertIn(why, self.plan("sum pay", words=words, status=status)[1])
        self.assertIn("wanted has no question", self.plan(status=1)[1])
        shutil.copy(self.folder / "table.csv", self.public / "table.csv")
        self.assertIn("auditor simulate: table: fault 2", self.plan("sum pay", status=1)[1])

    def test_a_report_has_a_line_for_each_wanted_question(self):
        self.table("ABCCCC")
        report = self.folder / "report.jsonl"
        self.plan("by team of sum pay with margins", "max bonus", "count", words=["--merge", "--report", report])
        lines = [json.loads(line) for line in report.read_text().splitlines()]
        self.assertEqual([(line["where"], line["answered"]) for line in lines[:-1]],
                         [("all", True), ("team = 'C'", True), ("team = 'A'", False), ("team = 'B'", False), ("all", None), ("all", True)])
        self.assertEqual(lines[2]["instead"], {"where": "team in ('A', 'B')", "rows": 2, "more": 1})
        self.assertEqual({key: lines[-1][key] for key in ("wanted", "answered", "instead", "maxima", "whole")},
                         {"wanted": 6, "answered": 3, "instead": 1, "maxima": 1, "whole": True})

    def interrupted(self, how, once):
        """The questions of a plan that is stopped once something is said."""
        with open(self.folder / "said", "wb") as said:
            run = subprocess.Popen([sys.executable, PLAN, AUDITOR, self.public, self.wanted, "--seconds", "6000"], stdout=subprocess.PIPE, stderr=said)
        end = time.monotonic() + PATIENCE
        while once not in (self.folder / "said").read_text():
            self.assertLess(time.monotonic(), end)
            time.sleep(0.05)
        run.send_signal(how)
        planned = run.communicate(timeout=PATIENCE)[0].splitlines()
        self.assertEqual(run.returncode, 1)
        self.assertIn("stopped: this is the best so far", (self.folder / "said").read_text())
        return planned

    def test_an_interrupted_plan_prints_the_best_so_far(self):
        self.table("AAA")
        self.wanted.write_text("".join(question(where, 2) + "\n" for where in ("all", "k <= 1", "k >= 1")))
        for how in (signal.SIGINT, signal.SIGTERM):
            planned = self.interrupted(how, "orders tried")
            self.assertEqual(sorted(self.wheres(planned)), ["k <= 1", "k >= 1"])
        self.assertTrue(all("sum" in reply for reply in self.serve(planned)))


if __name__ == "__main__":
    unittest.main()
