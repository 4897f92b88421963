#!/usr/bin/env python3
"""An attack by the people of a table, who know their own numbers. bench/askers.sh calls this.

    askers.py PROGRAM [--lines] [QUESTIONS [SEED]]

Works in the folder that it is called in. 200 people stand in a table, each in a row of her own or, with --lines, some behind a row of two or three;
each knows her own numbers in a column of sums and in one of maxima. They ask in turn, and all replies are open to all. An asker asks for somebody
else: over both of them, over a set with the other one in her place, over all but the two, over what two sets that were answered leave of each
other, over two where her own number is a low one; or for a third of the questions over any set. In the end each combines all answers with
what she knows:

    sums      modulo the prime 2^61 - 1, a reduced form of the answered sets: whose number is known to all, and which rows of one person
              differ by a factor alone in what the form leaves of them, so that either one's asker knows the other's number
    maxima    of each answer the rows that can have it, once all answers are told and one asker's own number besides

Of a row of two people whose total is known each knows the other's, and of their greatest number whoever of both hasn't it. A number that somebody
takes for known is compared with the table, and another one is a fault. The attack is made twice over fresh journals, without the key `askers` and with it. The exit status is 0 if without it
somebody is known, and with it nobody, and no number was wrong."""
import json
import os
import random
import subprocess
import sys

PRIME = 2**61 - 1
PEOPLE = 200
PAY, BEST = "pay", "best"


class Table:
    """The files of a table, and the numbers of the people behind each row."""

    def __init__(self, with_lines, seed):
        draw = self.draw = random.Random(seed)
        self.counts, left = [], PEOPLE
        while left:
            self.counts.append(min(left, draw.choice((1, 1, 1, 1, 2, 3)) if with_lines else 1))
            left -= self.counts[-1]
        self.pay = [[draw.randrange(20_000, 90_000) for _ in range(count)] for count in self.counts]
        self.best = [[draw.randrange(40) for _ in range(count)] for count in self.counts]
        self.counted = with_lines

    def write(self, keys):
        counts = [{"name": "people", "is": "count"}] if self.counted else []
        columns = [{"name": "id", "is": "number"}, *counts, {"name": PAY, "is": "sum"}, {"name": BEST, "is": "max"}]
        with open("schema.json", "w") as file:
            json.dump({"columns": columns, **keys}, file)
        with open("table.csv", "w") as file:
            print(*(column["name"] for column in columns), sep=",", file=file)
            for row, count in enumerate(self.counts):
                cells = [row, *([count] if self.counted else []), sum(self.pay[row]), max(self.best[row])]
                print(*cells, sep=",", file=file)


class Serving:
    """A run over a fresh journal, which is asked line by line."""

    def __init__(self, program, table, keys):
        if os.path.exists("answers.journal"):
            os.remove("answers.journal")
        table.write(keys)
        subprocess.run([program, "init"], check=True)
        self.process = subprocess.Popen([program, "serve"], stdin=subprocess.PIPE, stdout=subprocess.PIPE, text=True, bufsize=1)
        self.answers, self.denied = {PAY: [], BEST: []}, 0

    def ask(self, column, rows):
        ask = {PAY: "sum", BEST: "max"}[column]
        where = f"id in ({', '.join(map(str, sorted(rows)))})"
        if len(rows) > 200:
            where = "all"
        print(json.dumps({"ask": ask, "column": column, "where": where}, separators=(",", ":")), file=self.process.stdin)
        reply = json.loads(self.process.stdout.readline())
        if ask in reply:
            self.answers[column].append((frozenset(rows), reply[ask]))
        self.denied += "denied" in reply

    def end(self):
        self.process.stdin.close()
        assert self.process.wait() == 0


def set_for(table, serving, own, other):
    """A set by which the asker would know the other one's number, as far as she sees."""
    draw, everybody = table.draw, set(range(len(table.counts)))
    known = [rows for rows, _ in serving.answers[PAY]]
    match draw.randrange(6):
        case 0:
            return {own, other}
        case 1:
            return everybody - {own, other}
        case 2:
            rows = [rows for rows in known if own in rows and other not in rows]
            return draw.choice(rows) - {own} | {other} if rows else {own, other}
        case 3:
            rows = [rows for rows in known if own in rows and other in rows and len(rows) > 3]
            return draw.choice(rows) - {own, other} if rows else everybody - {own, other}
        case 4:
            rows = [rows for rows in known if len(rows) > 2]
            if len(rows) > 1:
                one, two = draw.sample(rows, 2)
                return (one ^ two) or {own, other}
    return set(draw.sample(sorted(everybody), draw.randint(3, 12))) | {own}


def attack(program, table, keys, questions):
    """The answers of a run in which each row's people ask in turn, and how many questions were denied."""
    serving, count = Serving(program, table, keys), len(table.counts)
    for number in range(questions):
        own, other = number % count, table.draw.randrange(count)
        if own == other:
            other = (other + 1) % count
        if table.draw.random() < 0.3:
            rows = set(table.draw.sample(range(count), table.draw.randint(2, count // 2)))
        else:
            rows = set_for(table, serving, own, other)
        serving.ask(PAY if table.draw.random() < 0.7 else BEST, rows)
    serving.end()
    return serving


class Form:
    """A reduced form of sets modulo the prime, each row with what the sums come to behind it."""

    def __init__(self, answers, count):
        self.rows, self.count = {}, count
        for rows, total in answers:
            self.add([int(row in rows) for row in range(count)] + [total % PRIME])

    def add(self, line):
        for pivot, row in self.rows.items():
            if line[pivot]:
                times = line[pivot]
                line = [(one - times * other) % PRIME for one, other in zip(line, row)]
        pivot = next((place for place in range(self.count) if line[place]), None)
        if pivot is None:
            return
        by = pow(line[pivot], -1, PRIME)
        line = [number * by % PRIME for number in line]
        for place, row in self.rows.items():
            if row[pivot]:
                times = row[pivot]
                self.rows[place] = [(one - times * other) % PRIME for one, other in zip(row, line)]
        self.rows[pivot] = line

    def left_of(self, row):
        """What the form leaves of a row, a number for each, and what is known of it besides: the row's number is what it leaves of the others'
        plus this."""
        if row not in self.rows:
            return [int(place == row) for place in range(self.count)], 0
        line = self.rows[row]
        return [-number % PRIME if place != row else 0 for place, number in enumerate(line[: self.count])], line[self.count]


def whole(number):
    return number if number <= PRIME // 2 else number - PRIME


def known_sums(table, answers):
    """The rows whose number is known, and what it is taken for: to all, or to whoever knows a row of one person."""
    form, found, by_list = Form(answers, len(table.counts)), {}, {}
    for row, count in enumerate(table.counts):
        left, rest = form.left_of(row)
        first = next((number for number in left if number), None)
        if first is None:
            found[row] = whole(rest)
        elif count == 1:
            by = pow(first, -1, PRIME)
            by_list.setdefault(tuple(number * by % PRIME for number in left), []).append((row, first, rest))
    for rows in by_list.values():
        for own, of_own, rest_of_own in rows:
            for row, first, rest in rows:
                if row != own:
                    # What both leave is one list: own = of_own · x + rest_of_own, and row = first · x + rest.
                    x = (table.pay[own][0] - rest_of_own) * pow(of_own, -1, PRIME)
                    found[row] = whole((first * x + rest) % PRIME)
    return found


def extremes(answers):
    """Of each answer the rows that can have it, with the answer."""
    bound = {}
    for rows, value in answers:
        for row in rows:
            bound[row] = min(value, bound.get(row, value))
    return [([row for row in rows if bound[row] == value], value) for rows, value in answers]


def known_maxima(table, answers):
    """The rows whose number is known, and what it is taken for."""
    found = {}
    for rows, value in extremes(answers):
        if len(rows) == 1:
            found[rows[0]] = value
        for own in rows if len(rows) == 2 else ():
            other = rows[rows[0] == own]
            if table.counts[own] == 1 == table.counts[other] and table.best[own][0] < value:
                found[other] = value
    return found


def others_known(table, found, told):
    """How many rows there are that somebody knows who mustn't: of one person, or of two, each of whom then knows the other's number, and whether all
    that is known is the table's. Of a row of three nothing is known of one of them."""
    right = all(told(table, row) == number for row, number in found.items())
    return sum(table.counts[row] <= 2 for row in found), right


def pay_of(table, row):
    return sum(table.pay[row])


def best_of(table, row):
    return max(table.best[row])


def one_attack(program, with_lines, keys, questions, seed):
    """How many rows are known to somebody who mustn't, and whether each was right."""
    table = Table(with_lines, seed)
    serving = attack(program, table, keys, questions)
    sums, are_right = others_known(table, known_sums(table, serving.answers[PAY]), pay_of)
    maxima, are_too = others_known(table, known_maxima(table, serving.answers[BEST]), best_of)
    told = f"{len(serving.answers[PAY])} sums and {len(serving.answers[BEST])} maxima told, {serving.denied} denied"
    print(f"{json.dumps(keys)}: {len(table.counts)} rows of {PEOPLE} people, {questions} questions: {told}; rows of one or two known to others: {sums} by sums, {maxima} by maxima")
    if not (are_right and are_too):
        print("a number that somebody takes for known is another one")
    return sums + maxima, are_right and are_too


def main():
    program, *words = sys.argv[1:]
    program = os.path.abspath(program)
    with_lines = "--lines" in words
    numbers = [int(word) for word in words if word != "--lines"]
    questions, seed = (numbers + [2000, 1][len(numbers) :])[:2]
    without, right = one_attack(program, with_lines, {}, questions, seed)
    inside, right_too = one_attack(program, with_lines, {"askers": "inside"}, questions, seed)
    return 0 if without and not inside and right and right_too else 1


if __name__ == "__main__":
    sys.exit(main())
