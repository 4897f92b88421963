#!/usr/bin/env python3
"""Measures what the gate costs: `rt ci`, from nothing, of a commit, or of two one after the other, each in a fresh clone where nothing
that was kept counts. Writes a table by crate, for docs/GATE.md.

    bench/gate.py [OLD] NEW [--processors N]      N is 2 if it isn't given

While a run goes on it says each minute how far it is. The minutes of a crate are those of the processes of rattle that name it, looked
at each second: a last second of each is missed, and counts as other work, with the links and the running of tests and programs. The
sums are the system's own, of all that a run started. The status is 1 if a run fails, or if the new commit is past the budget: 100
minutes of the clock, and 0.75 of the old commit's processor minutes."""
import argparse
import collections
import os
import re
import subprocess
import sys
import tempfile
import time
from pathlib import Path

TOP = Path(__file__).resolve().parent.parent
MOST_MINUTES = 100
MOST_OF_OLD = 0.75
TICKS = os.sysconf("SC_CLK_TCK")
KINDS = ("proofs", "edits", "tests")

Process = collections.namedtuple("Process", "name parent start seconds")
Cost = collections.namedtuple("Cost", "commit passed shares processor clock")


def processes():
    """Each process by its number, with the seconds of a processor that it and those that it has waited for took."""
    found = {}
    for entry in filter(str.isdigit, os.listdir("/proc")):
        try:
            name, _, rest = Path(f"/proc/{entry}/stat").read_text().partition("(")[2].rpartition(")")
        except OSError:
            continue
        words = rest.split()
        found[int(entry)] = Process(name, int(words[1]), int(words[19]), sum(map(int, words[11:15])) / TICKS)
    return found


def ancestors(found, number):
    """The numbers of a process and of those above it, from itself upwards."""
    while number in found:
        yield number
        number = found[number].parent


def share_of(number):
    """The crate of a process of rattle, and what it does for it."""
    words = Path(f"/proc/{number}/cmdline").read_text().split("\0")
    folder = os.readlink(f"/proc/{number}/cwd")
    kind = "edits" if "/rt-edit-" in folder else "tests" if "--test" in words else "proofs"
    return words[words.index("--crate-name") + 1], kind


class Meter:
    """What the processes of rattle below one process took."""

    def __init__(self, top):
        self.top = top
        self.shares = {}
        self.seconds = {}

    def look(self):
        found = processes()
        now = collections.Counter()
        for number, process in found.items():
            line = list(ancestors(found, number))
            if self.top not in line:
                continue
            if uppermost := [it for it in line if found[it].name == "rattle"][-1:]:
                now[uppermost[0], found[uppermost[0]].start] += process.seconds
        for key, seconds in now.items():
            self.note(key, seconds)

    def note(self, key, seconds):
        try:
            self.shares.setdefault(key, None)
            self.shares[key] = self.shares[key] or share_of(key[0])
        except (OSError, ValueError):
            return
        self.seconds[key] = max(seconds, self.seconds.get(key, 0))

    def minutes(self):
        """The minutes by crate and kind."""
        taken = collections.Counter()
        for key, seconds in self.seconds.items():
            taken[self.shares[key]] += seconds / 60
        return taken


def wait_for(gate, meter, commit):
    """Looks each second until the gate ends, and gives its status and what it used."""
    began = told = time.monotonic()
    while True:
        number, status, usage = os.wait4(gate.pid, os.WNOHANG)
        if number:
            return os.waitstatus_to_exitcode(status), usage, (time.monotonic() - began) / 60
        meter.look()
        if time.monotonic() - told >= 60:
            told = time.monotonic()
            print(f"{commit}: {(told - began) / 60:.0f} minutes, of processors {sum(meter.minutes().values()):.1f}", file=sys.stderr)
        time.sleep(1)


def keeps_proofs():
    """Whether this kit takes over what it proved before. An older one has no word against it, and begins from nothing at each run."""
    told = subprocess.run(["rt", "help"], capture_output=True, text=True)
    return "--anew" in told.stdout + told.stderr


def start(clone, processors, said):
    """Starts the gate in a clone, on the first few processors."""
    mine = ",".join(map(str, sorted(os.sched_getaffinity(0))[:processors]))
    anew = ["--anew"] if keeps_proofs() else []
    words = ["taskset", "-c", mine, "rt", "ci", *anew]
    return subprocess.Popen(words, cwd=clone, stdin=subprocess.DEVNULL, stdout=said, stderr=subprocess.STDOUT)


def measure(commit, processors):
    """What the gate of a commit costs."""
    with tempfile.TemporaryDirectory(prefix="gate-") as room, tempfile.TemporaryFile("w+") as said:
        clone = Path(room) / "auditor"
        subprocess.run(["git", "clone", "-q", TOP, clone], check=True)
        subprocess.run(["git", "checkout", "-q", commit], cwd=clone, check=True)
        gate = start(clone, processors, said)
        meter = Meter(gate.pid)
        status, usage, clock = wait_for(gate, meter, commit)
        if status:
            said.seek(0)
            print(*said.read().splitlines()[-20:], sep="\n", file=sys.stderr)
    return Cost(commit, status == 0, meter.minutes(), (usage.ru_utime + usage.ru_stime) / 60, clock)


def crates_of(costs):
    """The crates that were measured, in the order of crates.txt, and then those that it doesn't list any more."""
    measured = {crate for cost in costs for crate, _ in cost.shares}
    listed = [crate for crate in re.findall(r"(?m)^(\w+)", (TOP / "crates.txt").read_text()) if crate in measured]
    return listed + sorted(measured - set(listed))


def table(costs):
    """The minutes by crate in Markdown, a column for the proofs, the edits and the tests of each commit."""
    yield "| crate |" + "".join(f" {cost.commit}: {kind} |" for cost in costs for kind in KINDS)
    yield "|---|" + "---|" * len(costs) * len(KINDS)
    for crate in crates_of(costs):
        yield f"| `{crate}` |" + "".join(f" {cost.shares[crate, kind]:.1f} |" for cost in costs for kind in KINDS)
    columns = [sum(minutes for (_, of), minutes in cost.shares.items() if of == kind) for cost in costs for kind in KINDS]
    yield "| all of these |" + "".join(f" {minutes:.1f} |" for minutes in columns)


def sums(costs, processors):
    for cost in costs:
        yield f"{cost.commit}: {cost.processor:.1f} processor minutes, {cost.clock:.1f} of the clock on {processors} processors"


def faults(costs):
    """Which runs failed, and where the new commit is past the budget."""
    old, new = costs[0], costs[-1]
    yield from (f"{cost.commit}: the gate failed" for cost in costs if not cost.passed)
    if new.clock > MOST_MINUTES:
        yield f"past the budget: more than {MOST_MINUTES} minutes of the clock"
    if new is not old and new.processor > MOST_OF_OLD * old.processor:
        yield f"past the budget: {new.processor / old.processor:.2f} of the old commit's processor minutes, and not {MOST_OF_OLD}"


def main():
    words = argparse.ArgumentParser(description="Measures what the gate costs.")
    words.add_argument("commits", nargs="+", metavar="COMMIT")
    words.add_argument("--processors", type=int, default=2)
    given = words.parse_args()
    if len(given.commits) > 2 or given.processors < 1:
        words.error("one commit or two, and at least one processor")
    short = [subprocess.check_output(["git", "rev-parse", "--short", commit], cwd=TOP, text=True).strip() for commit in given.commits]
    costs = [measure(commit, given.processors) for commit in short]
    wrong = list(faults(costs))
    print(*table(costs), "", *sums(costs, given.processors), *wrong, sep="\n")
    return 1 if wrong else 0


if __name__ == "__main__":
    sys.exit(main())
