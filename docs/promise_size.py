#!/usr/bin/env python3
"""Counts what a reader of the promise must believe: the bare lines (no blank line, no comment, no import) of each definition
that the promise's clauses of `run` stand on, each counted once. Words of the kit count as known, and so do the types of the code.
The promise has parts: what may not be disclosed, when a question is denied, lines and conditions, the formats of the files, the
journal with its crashes, and lives of runs. Each has a limit of its own, and so has the whole.

    docs/promise_size.py             # a table by part; exits with 1 if there are more lines than there may be
    docs/promise_size.py --list      # with each definition and its lines
"""
import re
import sys
from collections import defaultdict
from pathlib import Path

TOP = Path(__file__).resolve().parent.parent
RUN = TOP / "crates/auditor_top/src/running.rt"
CLAUSE = "lives"
RECORD = ("auditor_top.specs.Runs", "Serving")  # of its fields these carry the promise too
FIELDS = ("served", "any_moment", "undisclosed")
HISTORY = "audit_types.specs.History"
# A definition belongs to the first part that has it: what this word stands on, or what stands in these crates.
STANDS_ON = {"disclosure": "IsUndisclosed", "decision": "IsLegal"}
CRATES = {
    "lines and conditions": ("line_wire", "predicate_lang", "set_index", "question_plan"),
    "formats of files": ("schema_json", "table_load"),
    "journal and crash": ("bench_core", "journal_form", "answer_journal", "audit_store"),
    "lives": ("audit_types", "audit_core", "audit_session", "twin_journal", "auditor_top"),
}
MOST = {
    "disclosure": 106,
    "decision": 107,
    "lines and conditions": 394,
    "formats of files": 231,
    "journal and crash": 92,
    "lives": 296,
    "the promise": 1230,
}

IMPORT = re.compile(r"(?:ghost )?use (?:Rattle\.)?([\w.]+?)(?:\.\{(.*)\}| as (\w+));?$")
ITEM = re.compile(r"( *)(?:(?:abbrev|unfoldable|pub) )*(record |data )?([^\s:({})]+)")
BLOCK = re.compile(r"(abbrev )?mutual$|module ")
WORD = re.compile(r"[^\s(){},;]+")


class Definition:
    """The lines of a definition, or of several that call one another; `place` is how many stand above it in its file."""

    def __init__(self, module, place, is_block):
        self.module, self.place, self.depth = module, place, 2 if is_block else 0
        self.lines, self.names, self.constructors, self.is_data = [], set(), set(), False

    def take(self, line):
        """Takes one more line, and the name that it defines."""
        self.lines.append(line)
        item = ITEM.match(line)
        if not item or BLOCK.match(line):
            return
        indent, kind, name = item.groups()
        if len(indent) == self.depth and name not in self.names:
            self.names.add(name)
            self.is_data = kind == "data "
        elif self.is_data and len(indent) == self.depth + 2:
            self.constructors.add(name)


class Module:
    """A file: the definitions of each name, and what it brings in by a name or as a module."""

    def __init__(self, name, text):
        self.name, self.definitions, self.items, self.modules = name, {}, {}, {}
        self.blocks = []
        for line in text.splitlines():
            if IMPORT.match(line):
                self.bring_in(*IMPORT.match(line).groups())

    def bring_in(self, path, names, alias):
        if alias:
            self.modules[alias] = path
        for name, _, other in (part.strip().partition(" as ") for part in (names or "").split(",")):
            self.items[other or name] = (path, name)

    def define(self, line):
        """Takes a bare line of the file into its last definition, or begins the next with it."""
        item, last = ITEM.match(line), self.blocks[-1] if self.blocks else None
        begins = item and not item[1] and (last is None or last.depth or BLOCK.match(line) or item[3] not in last.names)
        if begins:
            last = Definition(self, len(self.blocks), bool(BLOCK.match(line)))
            self.blocks.append(last)
        last.take(line)
        self.definitions |= {name: last for name in last.names | last.constructors}


def read_specs(path):
    text = path.read_text()
    module = Module(f"{path.parts[-3]}.specs.{path.stem}", text)
    for line in text.splitlines():
        if line.strip() and not line.lstrip().startswith("--") and not IMPORT.match(line):
            module.define(line)
    return module


MODULES = {module.name: module for module in map(read_specs, TOP.glob("crates/*/specs/*.antt"))}


def find(module, word, place):
    """The definition that a word names, if it is one of this repository: one of another file, or one that stands above."""
    head, _, rest = word.rstrip(".").partition(".")
    path, name = (module.modules[head], rest) if head in module.modules else module.items.get(head, (module.name, head))
    found = MODULES[path].definitions.get(name.partition(".")[0]) if path in MODULES else None
    return found if found and (found.module is not module or found.place <= place) else None


def is_constructor(module, word, place):
    found = find(module, word, place)
    return found is not None and word.rpartition(".")[2] in found.constructors


def variables(module, text, names, place):
    """The variables that a line brings in: in brackets with their type, after a `λ`, or on the left of an equation."""
    found = {name for group in re.findall(r"[({]([^(){}:]+) :", text) for name in group.split()}
    found |= set(re.findall(r"λ (\w+)\.", text))
    left = text.partition(" = ")[0] if " = " in text else ""
    if ITEM.match(text) and ITEM.match(text)[3] in names and " : " not in left:
        found |= {word for word in WORD.findall(left) if word not in names and not is_constructor(module, word, place)}
    return found


def whole_lines(lines):
    """The lines, each with those that go on with it: they stand four further in."""
    whole = []
    for line in lines:
        begin = whole and len(whole[-1]) - len(whole[-1].lstrip())
        if whole and line.startswith(" " * (begin + 4)):
            whole[-1] += " " + line.strip()
        else:
            whole.append(line)
    return whole


def words_of(module, lines, names=(), place=0):
    """The definitions that lines name. The parameters of a record or a type are variables in all of it, and so is a field below itself."""
    hidden = set()
    for text in whole_lines(lines):
        own = variables(module, text, names, place)
        if re.match(r" *(pub )?(record|data) ", text):
            hidden |= own
        for word in WORD.findall(re.sub(r"(?<=[{;])\s*\w+ = ", " ", text)):
            if word.partition(".")[0] not in own | hidden and (found := find(module, word, place)):
                yield found
        if field := re.match(r" +pub (\w+) :", text):
            hidden.add(field[1])


def all_below(found):
    """What these definitions stand on, themselves among it."""
    met, waiting = [], list(found)
    while waiting:
        if (definition := waiting.pop()) not in met:
            met.append(definition)
            waiting += words_of(definition.module, definition.lines, definition.names, definition.place)
    return met


def words_of_clauses():
    """The words of the clause of `run`, and of the fields of the record that its clause on `serve` is: their own lines aren't counted, as a clause's aren't."""
    text = RUN.read_text()
    body = re.search(rf"(?s)\n    ensures {CLAUSE} \{{(.*?)\}}\n", text)[1]
    yield from words_of(Module("run", text), [body.replace("\n", " ")])
    module = MODULES[RECORD[0]]
    record = module.definitions[RECORD[1]]
    for line in whole_lines(record.lines)[1:]:
        if re.match(r" *pub (\w+) :", line)[1] in FIELDS:
            yield from words_of(module, [line], place=record.place)


def parts():
    """The definitions of each part, and of the whole."""
    left = all_below(words_of_clauses())
    found = {"the promise": list(left)}
    for part, name in STANDS_ON.items():
        below = all_below([MODULES[HISTORY].definitions[name]])
        found[part] = [definition for definition in left if definition in below]
        left = [definition for definition in left if definition not in below]
    for part, crates in CRATES.items():
        found[part] = [definition for definition in left if crate_of(definition) in crates]
    counted = [definition for part in found if part != "the promise" for definition in found[part]]
    assert len(counted) == len(found["the promise"]), "a crate of the promise is in no part"
    return {part: found[part] for part in MOST}


def crate_of(definition):
    return definition.module.name.partition(".")[0]


def size(definitions):
    return sum(len(definition.lines) for definition in definitions)


def too_long():
    for what, definitions in parts().items():
        if size(definitions) > MOST[what]:
            yield f"{what}: {size(definitions)} lines of definitions, and at most {MOST[what]} may be (docs/promise_size.py --list)"


def print_table(what, definitions, with_list):
    print(f"{what}: {size(definitions)} lines in {len(definitions)} definitions, of at most {MOST[what]}")
    by_crate = defaultdict(list)
    for definition in definitions:
        by_crate[crate_of(definition)].append(definition)
    for crate, own in sorted(by_crate.items(), key=lambda pair: -size(pair[1])):
        print(f"{size(own):6} {crate}")
        for definition in sorted(own, key=lambda each: (each.module.name, each.place)) if with_list else ():
            print(f"{len(definition.lines):12} {definition.module.name.rpartition('.')[2]}: {', '.join(sorted(definition.names))}")


def main():
    for what, definitions in parts().items():
        print_table(what, definitions, "--list" in sys.argv)
    faults = list(too_long())
    if faults:
        print("\n".join(faults))
    return 1 if faults else 0


if __name__ == "__main__":
    sys.exit(main())
