#!/usr/bin/env python3
"""Compares two programs over random pairs of journals. bench/twin_files.sh calls this.

    twin_files.py PROGRAM PLAIN ROUNDS SEED

Works in the folder that it is called in. Each round has a history of its own, asked of the plain program, two files made from it, and a
few questions; both programs get copies. What they leave in the two files has to be the same up to the last byte."""
import collections
import os
import random
import shutil
import subprocess
import sys

SCHEMA = '{"columns":[{"name":"team","is":"text"},{"name":"k","is":"number"},{"name":"pay","is":"sum"},{"name":"best","is":"max"}]%s}'
PROTECT = ',"protect":[{"column":"pay","where":"k <= 2"}]'
FILES = ("answers.journal", "answers.spare")
HEADER = 20


def write_table(draw, rows):
    lines = ["team,k,pay,best"]
    lines += [f"{draw.choice('AB')},{row},{draw.randrange(100)},{draw.randrange(9)}" for row in range(rows)]
    with open("table.csv", "w") as table:
        table.write("".join(line + "\n" for line in lines))
    with open("schema.json", "w") as schema:
        schema.write(SCHEMA % draw.choice(["", "", PROTECT]))


def questions(draw, rows, count):
    lines = []
    for _ in range(count):
        kind, column = draw.choice([("sum", "pay"), ("max", "best")])
        low, high = sorted((draw.randrange(rows), draw.randrange(rows)))
        condition = draw.choice([f"k >= {low} and k <= {high}", "all", "team = 'A'", "team = 'B'"])
        lines.append(f'{{"ask":"{kind}","column":"{column}","where":"{condition}"}}\n')
    return "".join(lines).encode()


def run(program, folder, words, given=b""):
    ended = subprocess.run([program, *words], cwd=folder, input=given, capture_output=True)
    return ended.returncode, ended.stdout, ended.stderr


def history(plain, draw, rows):
    """The bytes of a journal that was asked at random, in groups of some size."""
    for name in FILES:
        if os.path.exists(name):
            os.remove(name)
    run(plain, ".", ["init"])
    run(plain, ".", ["serve", "--batch", str(draw.choice([1, 2, 5, 64]))], questions(draw, rows, draw.randrange(12)))
    with open(FILES[0], "rb") as journal:
        return journal.read()


def groups(journal, rows):
    """The header's bytes, and those of each group after its gate."""
    at, size, found = HEADER, 9 + (rows + 7) // 8, []
    while journal[at] == 1:
        end = at + 2 + journal[at + 1] * size
        found.append(journal[at + 1:end])
        at = end
    return journal[:HEADER], found


def joined(header, found):
    return header + b"".join(b"\1" + group for group in found) + b"\0"


def regrouped(journal, rows):
    """The same records, each in a group of its own."""
    header, found = groups(journal, rows)
    size = 9 + (rows + 7) // 8
    records = [group[1 + size * at:1 + size * (at + 1)] for group in found for at in range(group[0])]
    return joined(header, [b"\1" + record for record in records])


def grown(journal, rows, fewer):
    """A header over fewer rows, and a growth to all of them before the first record."""
    header, found = groups(journal, rows)
    return joined(header[:9] + fewer.to_bytes(2, "big") + header[11:], [b"\0" + rows.to_bytes(2, "big"), *found])


def changed(draw, journal):
    """One byte is another one."""
    if not journal:
        return journal
    place = draw.randrange(len(journal))
    return journal[:place] + bytes([draw.choice([0, 1, 2, 55, draw.randrange(256)])]) + journal[place + 1:]


def of_journal(draw, journal, rows):
    """A file that may stand in the place of this journal."""
    header, found = groups(journal, rows)
    kind = draw.randrange(13)
    if kind < 3:
        return journal
    if kind < 5:
        return joined(header, found[:draw.randrange(len(found) + 1)])
    if kind == 5:
        return regrouped(journal, rows)
    if kind == 6:
        return grown(journal, rows, draw.randrange(1, rows))
    if kind == 7:
        draw.shuffle(found)
        return joined(header, found)
    if kind == 8:
        return journal[:draw.randrange(len(journal) + 1)]
    if kind == 9:
        return b"\0" + journal[1:]
    if kind == 10:
        return journal + draw.randbytes(draw.randrange(20))
    if kind == 11:
        return joined(header[:10] + bytes([rows + draw.choice([-1, 1])]) + header[11:], [])
    return changed(draw, journal)


def put(folder, files):
    shutil.rmtree(folder, ignore_errors=True)
    os.mkdir(folder)
    for name in ("schema.json", "table.csv"):
        shutil.copy(name, folder)
    for name, content in zip(FILES, files):
        if content:
            with open(os.path.join(folder, name), "wb") as file:
                file.write(content)


def left(folder):
    found = []
    for name in FILES:
        path = os.path.join(folder, name)
        with open(path if os.path.exists(path) else os.devnull, "rb") as file:
            found.append(file.read())
    return found


def compare(programs, words, files, asked):
    """What both do over copies of the files, and whether it is the same."""
    came = []
    for folder, program in zip(("one", "other"), programs):
        put(folder, files)
        came.append((*run(program, folder, words, asked), *left(folder)))
    return came[0][0], came[0] == came[1], came


def main():
    program, plain, rounds, seed = sys.argv[1], sys.argv[2], int(sys.argv[3]), int(sys.argv[4])
    codes, wrong = collections.Counter(), 0
    for number in range(seed, seed + rounds):
        draw = random.Random(number)
        rows = draw.randrange(3, 12)
        write_table(draw, rows)
        whole = history(plain, draw, rows)
        files = [of_journal(draw, draw.choice([whole, whole, whole, history(plain, draw, rows)]), rows) for _ in FILES]
        if draw.random() < 0.2:
            files[draw.randrange(2)] = b""
        for words in (["restore"], ["serve", "--twin", "--batch", str(draw.choice([1, 3, 64]))]):
            code, same, came = compare((program, plain), words, files, questions(draw, rows, draw.randrange(4)))
            codes[words[0], code] += 1
            if not same:
                wrong += 1
                print(f"seed {number}, {' '.join(words)}:", *came, sep="\n  ")
    for (command, code), count in sorted(codes.items()):
        print(f"{command} ended with {code}: {count} times")
    print(f"{rounds} rounds from seed {seed}: {wrong} differ")
    sys.exit(wrong > 0)


if __name__ == "__main__":
    main()
