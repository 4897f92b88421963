#!/usr/bin/env python3
"""Asks random questions over tables whose rows stand for several people, and compares with the definitions. bench/over_people.sh calls this.

    over_people.py PROGRAM KEYS TABLES SEED

Works in the folder that it is called in. A table is drawn with 2 to 7 rows of 1 to 4 people, each of whom has a number in a column of sums,
one of maxima and one of minima; its rows have what is told of their people together. Of the KEYS, separated by commas, a schema states
some that are drawn. The program serves 25 random questions in two runs, and explains 12 others. Each reply has to be what follows, by fractions,
from the answers before it:

    over the rows     what fewer people than `fewest` have is guarded, two without the key; if the askers are in the table one of these may be the
                      asker, so one more, but that one who knows her own row, which has one person, isn't among those behind other rows. Of a
                      column of sums that is the number of a row, of one of maxima or minima the greatest or least of any rows
    over the people   the same of a table with a row for each person, and with sets of people in place of sets of rows; without `fewest`

Both have to say the same, and counts, sums, averages, maxima and minima have to be those of the people. A certificate has to name what the definition
finds first, and demo/check_certificate.py has to take it; demo/check_report.py has to take the report. `simulate` over the public part has
to find each verdict again, with `new` where the answer doesn't follow from those before. The exit status is 1 if something differs."""
import collections
import json
import math
import os
import random
import subprocess
import sys
from fractions import Fraction

from limits import changes_of, is_wide, least_change, reduced_form

DEMO = os.path.join(os.path.dirname(os.path.abspath(__file__)), "..", "demo")
WIDTHS = (1, 2, 3, 4, 2**56)
ASKED, EXPLAINED = 25, 12
PAY, BEST, LEAST = range(3)
NAMES = ("pay", "best", "least")


class People:
    """So many people behind each row, whether the askers are among them, and fewer than how many are guarded."""

    def __init__(self, counts, inside, fewest):
        self.counts, self.inside, self.fewest = counts, inside, fewest

    def askers(self):
        """What an asker may know: nothing, or her own row."""
        yield ()
        if self.inside:
            yield from ((row,) for row, count in enumerate(self.counts) if count == 1)

    def are_few(self, rows, own):
        """Whether the people behind these rows are guarded against one who knows these own rows."""
        return sum(self.counts[row] for row in rows) + len(own) < self.fewest + self.inside

    def guarded(self, own):
        return [row for row in range(len(self.counts)) if row not in own and self.are_few([row], own)]


def still_at(changes, own):
    """A basis of the changes that are 0 at the own rows."""
    for row in own:
        moving = next((change for change in changes if change[row]), None)
        if moving is not None:
            rest = [change for change in changes if change is not moving]
            changes = [[one - change[row] / moving[row] * other for one, other in zip(change, moving)] for change in rest]
    return changes


class Sums:
    """The answered sums of a column."""

    def __init__(self, people, groups, width, reach):
        self.people, self.groups, self.width, self.reach = people, groups, width, reach
        self.count, self.sets = len(people.counts), []

    def form_with(self, rows):
        return reduced_form([*self.sets, rows], self.count)

    def told(self, changes):
        """What would be known, in the order in which a certificate names it: the row or the group, and the asker's own row."""
        rows, groups = [], []
        for own in self.people.askers():
            still = still_at(changes, own)
            rows += [(bool(own), row, own) for row in self.people.guarded(own) if not any(change[row] for change in still)]
            for place, group in enumerate(self.groups):
                if set(group) - set(own) and not any(sum(change[row] for row in group) for change in still):
                    groups.append((bool(own), place, own))
        return [("row", row, own) for _, row, own in sorted(rows)] + [("group", place, own) for _, place, own in sorted(groups)]

    def is_far(self, changes):
        targets = [[row] for row in self.people.guarded(())] + self.groups
        sizes = [least_change(changes, target) for target in targets]
        return any(size is not None and size > self.reach for size in sizes)

    def verdict(self, rows):
        form, pivots = self.form_with(rows)
        changes = list(changes_of(form, pivots, self.count))
        if is_wide(form, pivots, self.width) or self.is_far(changes):
            return "wide"
        return "unsafe" if self.told(changes) else "released"

    def first_told(self, rows):
        return self.told(list(changes_of(*self.form_with(rows), self.count)))[0]

    def implies(self, rows):
        return len(self.form_with(rows)[0]) == len(self.sets)

    def take(self, rows, _):
        if not self.implies(rows):
            self.sets.append(rows)


class Maxima:
    """The answered maxima of a column."""

    def __init__(self, people):
        self.people, self.answers = people, []

    def extremes(self, answers):
        """Of each answer the rows that can have it."""
        bound = {row: min(value for rows, value in answers if row in rows) for rows, _ in answers for row in rows}
        return [[row for row in rows if bound[row] == value] for rows, value in answers]

    def candidates(self):
        values = {value for _, value in self.answers}
        return sorted({0} if not values else values | {value + 1 for value in values} | {min(values) - 1})

    def told(self, rows, value):
        """What would be known if the answer were this, in the order in which a certificate names it: a row, a row and the asker's own, or rows; and
        the first answer of which it is so."""
        answers = [*self.answers, (rows, value)]
        if not all(self.extremes(answers)):
            return []
        found = []
        for own in self.people.askers():
            for knows in self.numbers(own):
                extremes = self.extremes(answers + [([row], number) for row, number in zip(own, knows)])
                if all(extremes):
                    few = [(place, rows) for place, rows in enumerate(extremes[: len(answers)]) if not set(own) & set(rows) and self.people.are_few(rows, own)]
                    found += [(self.way(rows, own), rows, own, place) for place, rows in few if len(rows) == 1 or not own]
        return sorted(found)

    def way(self, rows, own):
        """Which way to name comes first: a row, a row beside an asker's own, several rows."""
        return 1 if own else 0 if len(rows) == 1 else 2

    def numbers(self, own):
        """Numbers that stand for all that an asker may have: each that was answered, and those next to it."""
        if not own:
            return [()]
        near = {value + step for value in self.candidates() for step in (-1, 0, 1)}
        return [(number,) for number in sorted(near)]

    def verdict(self, rows):
        return "unsafe" if any(self.told(rows, value) for value in self.candidates()) else "released"

    def first_told(self, rows):
        value, told = next((value, told) for value in self.candidates() if (told := self.told(rows, value)))
        _, rows, own, place = told[0]
        return value, rows, own, place

    def implies(self, rows):
        """Whether each candidate but one is impossible."""
        values = [value for value in self.candidates() if all(self.extremes([*self.answers, (rows, value)]))]
        above = max([value for _, value in self.answers], default=0) + 2
        return len(values) == 1 and not all(self.extremes([*self.answers, (rows, above)]))

    def take(self, rows, answer):
        self.answers.append((rows, answer))


def condition(rows):
    return f"id in ({','.join(map(str, rows))})"


class Table:
    """The files of a table, and who is behind its rows."""

    def __init__(self, keys, seed):
        draw = self.draw = random.Random(seed)
        self.counts = [draw.choice((1, 1, 1, 2, 2, 3, 4)) for _ in range(draw.randrange(2, 8))]
        self.inside = "askers" in keys and draw.random() < 0.7
        self.fewest = draw.choice((2, 3, 3, 4, 6)) if "fewest" in keys else 2
        self.width = draw.choice(WIDTHS) if "width" in keys else 2**56
        self.reach = draw.randrange(2, 6) if "reach" in keys else 4096
        most = draw.choice((2, 5, 1000))
        self.everyone = [[[draw.randint(-most, most) for _ in range(count)] for count in self.counts] for _ in NAMES]
        ends = [0]
        for count in self.counts:
            ends.append(ends[-1] + count)
        self.places = [list(range(first, last)) for first, last in zip(ends, ends[1:])]
        self.groups = [self.rows() for _ in range(draw.choice((0, 0, 1, 2)))]
        self.write()

    def write(self):
        columns = [{"name": "id", "is": "number"}, {"name": "people", "is": "count"}]
        columns += [{"name": name, "is": kind} for name, kind in zip(NAMES, ("sum", "max", "min"))]
        schema = {"columns": columns, "width": self.width, "reach": self.reach}
        if self.inside:
            schema["askers"] = "inside"
        if self.fewest > 2:
            schema["fewest"] = self.fewest
        schema["protect"] = [{"column": "pay", "where": condition(rows)} for rows in self.groups]
        with open("schema.json", "w") as file:
            json.dump(schema, file)
        secrets = [[told(numbers) for numbers in column] for told, column in zip((sum, max, min), self.everyone)]
        self.lines = [[row, count] for row, count in enumerate(self.counts)]
        with open("table.csv", "w") as file:
            file.write(",".join(("id", "people", *NAMES)) + "\n")
            for line, *numbers in zip(self.lines, *secrets):
                file.write(",".join(map(str, [*line, *numbers])) + "\n")

    def leave_the_public_part(self):
        with open("table.csv", "w") as file:
            file.write("id,people\n" + "".join(f"{row},{count}\n" for row, count in self.lines))

    def rows(self):
        count = len(self.counts)
        return sorted(self.draw.sample(range(count), self.draw.randint(1, self.draw.choice((count, min(count, 2))))))

    def behind(self, rows):
        """The people of some rows, each by a place of her own."""
        return [place for row in rows for place in self.places[row]]

    def columns(self, over_people):
        """The audit of each column, over the rows or over all people one by one. How far a change goes is no fact of people, so of these each
        is within reach."""
        people = People([1] * sum(self.counts) if over_people else self.counts, self.inside, self.fewest)
        groups = [self.behind(rows) for rows in self.groups] if over_people else self.groups
        return [Sums(people, groups, self.width, 4096 if over_people else self.reach), Maxima(people), Maxima(people)]

    def numbers(self, column, rows):
        return [number for row in rows for number in self.everyone[column][row]]

    def answer(self, ask, rows):
        """What the people of the rows come to, as a reply tells it, and as a record keeps it."""
        match ask:
            case "max":
                best = max(self.numbers(BEST, rows))
                return {"max": best}, best
            case "min":
                least = min(self.numbers(LEAST, rows))
                return {"min": least}, -least
        pay, people = sum(self.numbers(PAY, rows)), len(self.behind(rows))
        if ask == "sum":
            return {"sum": pay}, pay
        by = math.gcd(pay, people)
        return {"num": pay // by, "den": people // by}, pay

    def questions(self, count):
        for _ in range(count):
            yield self.draw.choice(("sum", "sum", "sum", "avg", "max", "max", "min", "count")), self.rows()


COLUMN = {"sum": PAY, "avg": PAY, "max": BEST, "min": LEAST}


def line(ask, rows):
    column = {} if ask == "count" else {"column": NAMES[COLUMN[ask]]}
    return json.dumps({"ask": ask, **column, "where": condition(rows)}, separators=(",", ":"))


class Audit:
    """What is due of a table, over its rows and over its people."""

    def __init__(self, table):
        self.table, self.by_rows, self.by_people = table, table.columns(False), table.columns(True)
        self.history, self.places = [], {}

    def verdict(self, ask, rows):
        column = COLUMN[ask]
        verdict = self.by_rows[column].verdict(rows)
        if self.table.fewest > 2:
            return verdict
        over_people = self.by_people[column].verdict(self.table.behind(rows))
        far = verdict == "wide" and over_people != "wide"
        assert verdict == over_people or far and self.table.reach < 4096, f"{verdict} over rows, {over_people} over people"
        return verdict

    def reply(self, ask, rows):
        """The reply due, and the line due of `simulate`."""
        if ask == "count":
            return {"count": len(self.table.behind(rows))}, {"verdict": "count"}
        verdict, column = self.verdict(ask, rows), COLUMN[ask]
        if verdict != "released":
            return {"denied": verdict}, {"verdict": verdict}
        follows = self.by_rows[column].implies(rows)
        told, answer = self.table.answer(ask, rows)
        for audit, chosen in ((self.by_rows, rows), (self.by_people, self.table.behind(rows))):
            audit[column].take(chosen, answer)
        self.places.setdefault(column, []).append(len(self.history))
        self.history.append((column, rows, answer))
        return told, {"verdict": "released", **({"new": False} if follows else {})}

    def explained(self, ask, rows, said):
        """Whether a line of `explain` has the verdict that is due, and names what the definition finds first."""
        verdict = "count" if ask == "count" else self.verdict(ask, rows)
        if said["verdict"] != verdict or verdict != "unsafe":
            return said == {"verdict": verdict}
        column = COLUMN[ask]
        if column == PAY:
            kind, place, own = self.by_rows[PAY].first_told(rows)
            return said.get("proof") == "wide" or said.get(kind) == place and said.get("own") == (own[0] if own else None)
        value, few, own, place = self.by_rows[column].first_told(rows)
        named = {"row": few[0]} if len(few) == 1 else {"rows": few}
        pair = (self.places.get(column, []) + ["asked"])[place]
        sign = -1 if column == LEAST else 1
        due = {"answer": sign * value, **named, **({"own": own[0]} if own else {}), "pair": pair}
        return {key: value for key, value in said.items() if key not in ("verdict", "high", "low")} == due


def run(program, words, given=""):
    return subprocess.run([program, *words], input=given, capture_output=True, text=True, check=True).stdout


def script(name, given, *words):
    """Whether one of the demo's scripts takes what was sent."""
    done = subprocess.run([sys.executable, os.path.join(DEMO, name), *words], input=given, capture_output=True, text=True)
    if done.returncode:
        print(done.stdout, end="")
    return done.returncode == 0


def serve(program, lines):
    """The replies of two runs, of which the second one opens the journal of the first."""
    if os.path.exists("answers.journal"):
        os.remove("answers.journal")
    run(program, ["init"])
    half = len(lines) // 2
    return "".join(run(program, ["serve"], "".join(f"{line}\n" for line in part)) for part in (lines[:half], lines[half:])).splitlines()


def explains(program, audit, others):
    """Whether the certificates of other questions name what is due, and hold."""
    asked = "".join(line(*question) + "\n" for question in others)
    said = run(program, ["explain"], asked)
    with open("questions.jsonl", "w") as file:
        file.write(asked)
    named = all(audit.explained(*question, json.loads(text)) for question, text in zip(others, said.splitlines(), strict=True))
    return named and script("check_certificate.py", said, "questions.jsonl"), said.count('"unsafe"')


def reports(program, table, audit):
    """Whether the report has a line for each guarded row, or for each row that may change if the askers are in the table, says how many people there
    are, and holds."""
    said = run(program, ["audit"])
    lines = [json.loads(text) for text in said.splitlines()]
    rows = [found["row"] for found in lines if "row" in found]
    sums = audit.by_rows[PAY]
    changes = list(changes_of(*reduced_form(sums.sets, sums.count), sums.count))
    open_rows = [row for row in range(sums.count) if any(change[row] for change in changes)]
    due = open_rows if table.inside else sums.people.guarded(())
    return rows == due and lines[-1]["people"] == sum(table.counts) and script("check_report.py", said)


def simulates(program, table, questions, replies, due):
    """Whether the verdicts on the transcript, over the public part alone, are those due."""
    os.remove("answers.journal")
    table.leave_the_public_part()
    transcript = "".join(f"{line(*question)}\n{reply}\n" for question, reply in zip(questions, replies, strict=True))
    return [json.loads(text) for text in run(program, ["simulate"], transcript).splitlines()] == due


def one_table(program, keys, seed, counts):
    """What is wrong with a table's replies, or None."""
    table = Table(keys, seed)
    audit = Audit(table)
    questions, others = list(table.questions(ASKED)), list(table.questions(EXPLAINED))
    replies, verdicts = serve(program, [line(*question) for question in questions]), []
    for number, (question, said) in enumerate(zip(questions, replies, strict=True), 1):
        due, verdict = audit.reply(*question)
        verdicts.append(verdict)
        counts[verdict["verdict"]] += 1
        if json.loads(said) != due:
            return f"question {number}: {said}, and {json.dumps(due)} is due"
    hold, certificates = explains(program, audit, others)
    counts["certificates"] += certificates
    if not hold:
        return "a certificate isn't as it has to be"
    if not reports(program, table, audit):
        return "the report isn't as it has to be"
    if not simulates(program, table, questions, replies, verdicts):
        return "a verdict on the transcript isn't as it has to be"
    return None


def main():
    program, keys, tables, first = sys.argv[1], sys.argv[2].split(","), int(sys.argv[3]), int(sys.argv[4])
    counts, wrong = collections.Counter(), 0
    for seed in range(first, first + tables):
        fault = one_table(program, keys, seed, counts)
        if fault:
            print(f"seed {seed}: {fault}")
            wrong += 1
    certificates = counts.pop("certificates", 0)
    said = ", ".join(f"{count} {name}" for name, count in sorted(counts.items()))
    print(f"{tables} tables, {sum(counts.values())} questions over rows and over all of their people where no fewest is stated, the same of both: {said}; {certificates} certificates; {wrong} wrong")
    return 1 if wrong else 0


if __name__ == "__main__":
    sys.exit(main())
