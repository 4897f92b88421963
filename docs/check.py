#!/usr/bin/env python3
"""Checks that what the documents name is there: links, paths, edits, clauses and words of specs/; that README's questions are the
demo's and have its replies; that the demo and the gate's case of the program have the same files; that the pages name the newest release;
that each entry of DECISIONS stands under its crates, and these in the order of crates.txt; that README and ARCHITECTURE are no longer than
they may be; that the gate tries no more wrong bodies than it may, and the others apply; that no line of a proof is over 160 characters;
and that the promise stands on no more lines of definitions than it may (promise_size.py).

    docs/check.py           # prints each name that isn't there; exits with 1 if there is one
"""
import json
import re
import sys
from pathlib import Path

import promise_size

TOP = Path(__file__).resolve().parent.parent
PAGES = [TOP / "README.md", *sorted(TOP.glob("docs/*.md")), *sorted(TOP.glob("crates/*/README.md")), TOP / "bench/README.md"]
HISTORY = {"DECISIONS.md", "CHANGELOG.md"}  # they speak of what was, too
BUILT = {"crates/auditor/out/auditor"}  # by demo/run.sh


def read(pattern):
    return {path: path.read_text() for path in TOP.glob(pattern)}


SOURCES = "\n".join(read("crates/*/src/**/*.rt").values())
SPECS = "\n".join(read("crates/*/specs/**/*.antt").values())
EDITS = {path.stem for path in TOP.glob("crates/*/must-fail/*.edit")}
PLANTS = {path.stem for path in TOP.glob("bench/plants/*/*.edit")}
CLAUSES = set(re.findall(r"\bensures (\w+) \{", SOURCES)) | set(re.findall(r"\brequires (\w+) \{", SOURCES))
CALLS = set(re.findall(r"\bfn (\w+)", SOURCES)) | set(re.findall(r"\b(?:struct|enum|trait) (\w+)", SOURCES))
LAWS = set(re.findall(r"\bghost (\w+):", SOURCES)) | set(re.findall(r"\bghost fn (\w+)", SOURCES))
WORDS = set(re.findall(r"(?m)^\s*(?:pub |abbrev |unfoldable |record |data |enum )*(\w+)\b", SPECS)) | CALLS


def anchors(text):
    """The names by which a page's headings can be linked to."""
    headings = re.findall(r"(?m)^#+ (.*)$", text)
    return {re.sub(r"[^\w -]", "", heading.lower()).replace(" ", "-") for heading in headings}


def missing_links(page, text):
    for target, part in re.findall(r"\]\(([^)#\s]*)#?([^)\s]*)\)", text):
        if "://" in target:
            continue
        linked = page.parent / target if target else page
        if not linked.exists():
            yield f"link {target}"
        elif part and part not in anchors(linked.read_text()):
            yield f"link {target}#{part}"


def missing_paths(page, text):
    for path in re.findall(r"(?<![\w./])((?:crates|docs|demo|bench)/[\w./-]*\w)", text):
        if path not in BUILT and not (TOP / path).exists():
            yield f"path {path}"


def missing_edits(page, text):
    for name in re.findall(r"\b(\w+)\.edit\b", text):
        if name not in EDITS:
            yield f"edit {name}"


def missing_rows(page, text):
    """The cells of an index of clauses: a sentence, clauses, words, edits, and after `planted:` wrong bodies of bench/plants. A table of
    layers isn't one, though it has as many."""
    text = re.sub(r"(?m)^\| layer .*\n(?:\|.*\n)*", "", text)
    for row in re.findall(r"(?m)^\| (?!what is said|---)(.*) \|$", text):
        cells = row.split(" | ")
        if len(cells) != 4:
            continue
        for name in re.findall(r"`(\w+)`", cells[1]):
            if name not in CLAUSES | CALLS | LAWS | WORDS:
                yield f"clause {name}"
        for name in re.findall(r"`(\w+)`", cells[2]):
            if name not in WORDS | CLAUSES:
                yield f"word {name}"
        tried, _, planted = cells[3].partition("planted:")
        for name in re.findall(r"\b[a-z0-9]+(?:_[a-z0-9]+){2,}\b", tried):
            if name not in EDITS and name not in CALLS:
                yield f"edit {name}"
        for name in re.findall(r"\b[a-z0-9]+(?:_[a-z0-9]+){2,}\b", planted):
            if name not in PLANTS:
                yield f"plant {name}"


def missing_entries(page, text):
    """The clauses and definitions of an entry, each with its words after it."""
    for kind, lines in re.findall(r"(?m)^(Clause|Definition):((?:.*\n)(?: {15}.*\n)*)", text):
        for name in re.findall(r"`(?:\w+::)?(\w+)`", lines):
            known = WORDS if kind == "Definition" else CLAUSES | CALLS | LAWS | WORDS | CRATES
            if name not in known:
                yield f"{kind.lower()} {name}"


def missing_tests(page, text):
    for tried in re.findall(r"Tried by: (.*)", text):
        for name in re.findall(r"`(\w+)`", tried):
            if name not in CALLS | CRATES:
                yield f"test {name}"


CRATES = {path.name for path in TOP.glob("crates/*")}
COPIES = {"schema.json": "data/schema.json", "table.csv": "data/table.csv", "questions.jsonl": "stdin", "replies.jsonl": "stdout"}


def asked(line):
    """A question, whoever asks it."""
    return {key: value for key, value in json.loads(line).items() if key != "user"}


def stale_transcript():
    """README's questions that the demo doesn't ask, and replies that aren't those to the question before them."""
    questions = [line for line in (TOP / "demo/questions.jsonl").read_text().splitlines() if line]
    replies = (TOP / "demo/replies.jsonl").read_text().splitlines()
    due = {str(asked(question)): reply for question, reply in zip(questions, replies, strict=True)}
    shown = re.findall(r"(?m)^ {4}(\{.*\})$", (TOP / "README.md").read_text())
    if not shown:
        yield "README.md: it shows no question with its reply"
    for question, reply in zip(shown[::2], shown[1::2], strict=True):
        if due.get(str(asked(question))) != reply:
            yield f"README.md: reply {reply} to {question}"


def stale_copies():
    for ours, gates in COPIES.items():
        if (TOP / "demo" / ours).read_bytes() != (TOP / "crates/auditor" / gates).read_bytes():
            yield f"demo/{ours}: other than crates/auditor/{gates}"


def stale_version():
    """README's tarball, the manual page and `--version` have the version, and the manual page the date, of the newest release."""
    version, date = re.search(r"(?m)^## ([\d.]+) \((\d{4}-\d\d-\d\d)\)$", (TOP / "CHANGELOG.md").read_text()).groups()
    for named in re.findall(r"auditor[-_](\d[\d.]*\d)[-_]", (TOP / "README.md").read_text()):
        if named != version:
            yield f"README.md: version {named}, and {version} is the newest of CHANGELOG.md"
    if f'\n.TH AUDITOR 1 {date} "auditor {version}" ' not in (TOP / "docs/auditor.1").read_text():
        yield f"docs/auditor.1: its head isn't of version {version} and {date}"
    if f'codes "auditor {version}"' not in (TOP / "crates/usage/specs/Usage.antt").read_text():
        yield f"crates/usage: its version isn't {version}"


def wrong_entries():
    """Entries of DECISIONS.md without a date, twice, or out of the order of dates; headings that aren't crates, or stand out of their order."""
    order = re.findall(r"(?m)^([a-z_]+)(?: [^:\n]*)?:", (TOP / "crates.txt").read_text())
    places = {name: place for place, name in enumerate(["The whole repository", *order, "bench", "demo", "front"])}
    last, titles = -1, []
    for section in re.split(r"(?m)^## ", (TOP / "docs/DECISIONS.md").read_text())[1:]:
        heading = section.split("\n", 1)[0]
        first = min((places.get(name, -1) for name in heading.split(", ")))
        if first <= last:
            yield f"docs/DECISIONS.md: {heading}: not crates, or out of the order of crates.txt"
        last = first
        dates = re.findall(r"(?m)^### .* \((\d{4}-\d\d-\d\d)\)$", section)
        if len(dates) != len(re.findall(r"(?m)^### ", section)) or dates != sorted(dates):
            yield f"docs/DECISIONS.md: {heading}: an entry without a date, or after a later one"
        titles += re.findall(r"(?m)^### (.*) \(", section)
    for title in sorted({title for title in titles if titles.count(title) > 1}):
        yield f"docs/DECISIONS.md: more than one entry: {title}"


LONGEST = {"README.md": 110, "docs/ARCHITECTURE.md": 90}


def too_long():
    for page, most in LONGEST.items():
        if (lines := len((TOP / page).read_text().splitlines())) > most:
            yield f"{page}: {lines} lines, and at most {most} are meant"


MOST_EDITS, MOST_EDITS_OF_ALL = 3, 110
# Each of these may have one more.
HEART = {"sum_basis", "max_bounds", "audit_core", "answer_journal", "audit_store", "audit_session", "auditor_top", "file_adapters"}
MOST_OF_A_LINE = 160


def too_many_edits():
    """Crates with more wrong bodies than the gate may try, and all of them together (GATE.md)."""
    counts = {crate: len(list(TOP.glob(f"crates/{crate}/must-fail/*.edit"))) for crate in sorted(CRATES)}
    for crate, count in counts.items():
        most = MOST_EDITS + (crate in HEART)
        if count > most:
            yield f"crates/{crate}: {count} edits, and {most} at most"
    if sum(counts.values()) > MOST_EDITS_OF_ALL:
        yield f"crates: {sum(counts.values())} edits, and {MOST_EDITS_OF_ALL} at most"


def stale_plants():
    """Wrong bodies of bench/plants that don't apply any more: the gate doesn't try them, and nobody would learn of it."""
    for plant in sorted(TOP.glob("bench/plants/*/*.edit")):
        texts, file, old = {}, None, ""
        for word, text in re.findall(r"(?m)^(file|old|new): ?(.*)$", plant.read_text()):
            if word == "file":
                file = TOP / "crates" / plant.parent.name / text
                texts.setdefault(file, file.read_text() if file.exists() else "")
            elif word == "old":
                old = text
            elif texts[file].count(old) == 1:
                texts[file] = texts[file].replace(old, text)
            else:
                yield f"{plant.relative_to(TOP)}: its old text stands {texts[file].count(old)} times in {file.relative_to(TOP)}"


def wide_proofs():
    """Lines of proofs over 160 characters, use lines and texts of programs aside."""
    for path in sorted(TOP.glob("crates/*/proofs/**/*.antt")):
        for number, line in enumerate(path.read_text().splitlines(), 1):
            if len(line) > MOST_OF_A_LINE and not line.lstrip().startswith(("use ", "codes ")):
                yield f"{path.relative_to(TOP)}:{number}: {len(line)} characters, and {MOST_OF_A_LINE} at most"


CHECKS = [missing_links, missing_paths, missing_edits, missing_rows, missing_entries, missing_tests]


def main():
    faults = [
        f"{page.relative_to(TOP)}: {fault}"
        for page in PAGES
        if page.name not in HISTORY
        for check in CHECKS
        for fault in check(page, page.read_text())
    ]
    faults += [*stale_transcript(), *stale_copies(), *stale_version(), *wrong_entries(), *too_long()]
    faults += [*too_many_edits(), *stale_plants(), *wide_proofs(), *promise_size.too_long()]
    print("\n".join(faults) if faults else f"{len(PAGES)} pages, and all that they name is there")
    return 1 if faults else 0


if __name__ == "__main__":
    sys.exit(main())
