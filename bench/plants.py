#!/usr/bin/env python3
"""Tries the wrong bodies of bench/plants/, which the gate doesn't: the proof of its crate must refuse each.

    bench/plants.py [CRATE..]     all crates that have any if none is named, lowest first

It works on a clone of what is committed, in a folder that is gone at the end, where each must-fail/ holds the crate's plants in place
of its edits. After each crate it says how many are tried, and for each plant the goal that stayed open, or what the proof said. The
status is 1 if one wasn't refused, couldn't be applied or wasn't tried, and 2 if a crate that is named has none. A plant takes 12 seconds
of a processor or more, and the first one of a crate waits for the proofs of the libraries below it, unless this machine has them."""
import re
import shutil
import subprocess
import sys
import tempfile
import time
from pathlib import Path

TOP = Path(__file__).resolve().parent.parent
PLANTS = TOP / "bench/plants"
REFUSED = re.compile(r"^rt: must-fail \w+/(\w+)\.edit: refused, as it must be(?::? (.*))?$")
OTHER = re.compile(r"^rt: must-fail \w+/(\w+)\.edit: (.*)$")


def layers():
    """The crates that have plants, lowest first."""
    listed = re.findall(r"(?m)^(\w+)[^:\n]*:", (TOP / "crates.txt").read_text())
    return [crate for crate in listed if (PLANTS / crate).is_dir()]


def plants_of(crate):
    return sorted((PLANTS / crate).glob("*.edit"))


def plant(clone, crates):
    """Takes each edit out of the clone, and puts the plants of these crates in their place."""
    for edit in clone.glob("crates/*/must-fail/*.edit"):
        edit.unlink()
    for crate in crates:
        beds = clone / "crates" / crate / "must-fail"
        beds.mkdir(exist_ok=True)
        for wrong in plants_of(crate):
            shutil.copy(wrong, beds)


def goal_of(message):
    """The goal that stayed open, which names a clause of the contract or a step of the proof, or else all that was said."""
    goal = re.search(r"error: `([\w-]+)`", message)
    return goal[1] if goal and not message.startswith("(only ") else message


def tell(crate, said):
    """Prints what became of each plant of the crate, and counts those that were refused."""
    refused = 0
    for line in said.splitlines():
        if told := REFUSED.match(line):
            refused += 1
            print(f"    {told[1]}: refused by {goal_of(told[2] or 'a proof that no longer holds')}")
        elif told := OTHER.match(line):
            print(f"    {told[1]}: {told[2]}")
    return refused


def try_crate(clone, crate):
    """Whether all plants of the crate were refused."""
    began = time.monotonic()
    ran = subprocess.run(["rt", "must-fail", crate], cwd=clone, stdout=subprocess.PIPE, stderr=subprocess.STDOUT, text=True)
    refused, all_of = tell(crate, ran.stdout), len(plants_of(crate))
    print(f"{crate}: {refused} of {all_of} refused, in {time.monotonic() - began:.0f} seconds", flush=True)
    if ran.returncode == 0 and refused == all_of:
        return True
    if refused < all_of and not OTHER.search(ran.stdout):
        print(ran.stdout[-2000:], file=sys.stderr)
    return False


def main():
    known = layers()
    if lacking := [name for name in sys.argv[1:] if name not in known]:
        print(f"plants: no plants of {', '.join(lacking)}; there are some of {', '.join(known)}", file=sys.stderr)
        return 2
    crates = [crate for crate in known if not sys.argv[1:] or crate in sys.argv[1:]]
    left = sum(len(plants_of(crate)) for crate in crates)
    faults = 0
    with tempfile.TemporaryDirectory(prefix="plants-") as room:
        clone = Path(room) / "auditor"
        subprocess.run(["git", "clone", "-q", TOP, clone], check=True)
        plant(clone, crates)
        for crate in crates:
            print(f"{crate}: {len(plants_of(crate))} plants; {left} are left to try", flush=True)
            faults += not try_crate(clone, crate)
            left -= len(plants_of(crate))
    print("each plant was refused" if faults == 0 else f"{faults} crates have a plant that wasn't refused, or couldn't be tried")
    return 1 if faults else 0


if __name__ == "__main__":
    sys.exit(main())
