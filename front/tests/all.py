"""Runs all tests of this folder, each class in a process of its own, some at once, and prints what was run.

    AUDITOR=.. /usr/bin/python3 all.py [CLASS ..]         test_door.Doors, say; all without one

Exit status 1 if a test fails, if one is skipped for another reason than that there is no browser, R, systemd, lintian or PostgreSQL, or if nothing was run.
"""
import concurrent.futures
import json
import os
import pathlib
import subprocess
import sys
import time
import unittest

HERE = pathlib.Path(__file__).resolve().parent
AT_ONCE = max(2, min(4, os.cpu_count() or 2))
PATIENCE = 1800                     # seconds for a class, in case that it hangs; on a quiet machine none takes a minute
# What may be missing; everything else must run.
MAY_BE_MISSING = ("no Chromium", "no R ", "no systemd", "no lintian", "no PostgreSQL")


def classes():
    """The names of all classes of tests, without those that only others are made from."""
    found = {}

    def visit(suite):
        for test in suite:
            if isinstance(test, unittest.TestSuite):
                visit(test)
            else:
                name = type(test).__module__ + "." + type(test).__qualname__
                found[name] = found.get(name, 0) + 1
    loader = unittest.TestLoader()
    visit(loader.discover(str(HERE), top_level_dir=str(HERE)))
    if loader.errors:
        sys.exit("\n".join(loader.errors))
    return sorted(found, key=lambda name: (not name.startswith("test_door"), name))


def run_one(name):
    """Runs a class in this process and says what came of it, as the last line."""
    suite = unittest.defaultTestLoader.loadTestsFromName(name)
    result = unittest.TextTestRunner(stream=sys.stderr, verbosity=2).run(suite)
    skipped = [reason for _, reason in result.skipped]
    print(json.dumps({"run": result.testsRun, "failed": len(result.failures) + len(result.errors) + len(result.unexpectedSuccesses),
                      "skipped": skipped}))


def run_apart(name):
    began = time.monotonic()
    try:
        done = subprocess.run([sys.executable, "-W", "ignore", __file__, "--one", name], cwd=HERE, capture_output=True, text=True,
                              timeout=PATIENCE)
        said = json.loads(done.stdout.strip().rsplit("\n", 1)[-1])
        text = done.stderr
    except (subprocess.TimeoutExpired, ValueError) as fault:
        said, text = {"run": 0, "failed": 1, "skipped": []}, f"{name}: {fault}\n"
    said["wrong skips"] = [reason for reason in said["skipped"] if not any(word in reason for word in MAY_BE_MISSING)]
    return name, said, text, time.monotonic() - began


def show(name, said, text, seconds):
    skipped = f", {len(said['skipped'])} skipped" if said["skipped"] else ""
    print(f"{name}: {said['run']} tests, {said['failed']} failed{skipped}, {seconds:.0f} s", flush=True)
    if said["failed"] or said["wrong skips"]:
        print(text, flush=True)


def main(names):
    began = time.monotonic()
    names = names or classes()
    with concurrent.futures.ThreadPoolExecutor(AT_ONCE) as pool:
        outcomes = []
        for outcome in concurrent.futures.as_completed([pool.submit(run_apart, name) for name in names]):
            outcomes.append(outcome.result()[1])
            show(*outcome.result())
    count = sum(one["run"] for one in outcomes)
    failed = sum(one["failed"] for one in outcomes)
    skips = [reason for one in outcomes for reason in one["skipped"]]
    for reason in sorted(set(skips)):
        print(f"skipped, {skips.count(reason)} times: {reason}")
    print(f"front: {count} tests in {len(names)} classes, {failed} failed, {len(skips)} skipped, {time.monotonic() - began:.0f} s")
    wrong = [reason for one in outcomes for reason in one["wrong skips"]]
    if wrong:
        print("these must run: " + "; ".join(sorted(set(wrong))))
    return 1 if failed or wrong or not count else 0


if __name__ == "__main__":
    if sys.argv[1:2] == ["--one"]:
        run_one(sys.argv[2])
    else:
        sys.exit(main(sys.argv[1:]))
