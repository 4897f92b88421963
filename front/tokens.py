#!/usr/bin/python3
"""Gives out tokens with which people ask at the front door, each with limits of its own.

    tokens.py add NAME [--records N] [--new N] [--answers N] [--verdicts N] [--bytes N]
                                                                prints a token, once: only its sum is kept
    tokens.py list                                                              prints the names with their limits
    tokens.py remove NAME

The door takes the file with `--tokens FILE`, and looks at it every second.
"""
import argparse
import json
import pathlib
import secrets
import sys

from doorway.askers import LIMITS, NAME, limits_of, read_tokens, sum_of
from doorway.files import write_whole

SIZE = 24                           # random bytes of a token


def parser():
    words = argparse.ArgumentParser(prog="tokens.py", description="Tokens with which people ask at the front door.")
    words.add_argument("--file", default="tokens.json", help="the file of their sums; tokens.json by default")
    commands = words.add_subparsers(dest="command", required=True)
    add = commands.add_parser("add", help="make a token for a new name, and print it")
    add.add_argument("name")
    for what, text in LIMITS.items():
        add.add_argument(f"--{what}", type=int, metavar="N", help=f"at most so many {text}")
    commands.add_parser("list", help="print the names with their limits")
    commands.add_parser("remove", help="take a name's token back").add_argument("name")
    return words


def add(path, entries, settings):
    limits = {what: getattr(settings, what) for what in LIMITS if getattr(settings, what) is not None}
    if not NAME.fullmatch(settings.name):
        raise ValueError(f"{settings.name!r} can't be a name: letters, digits, _ . @ and -")
    if settings.name in entries:
        raise ValueError(f"{settings.name} has a token: remove it first")
    if any(count < 0 for count in limits.values()):
        raise ValueError("a limit is at least 0")
    token = secrets.token_urlsafe(SIZE)
    write(path, {**entries, settings.name: {"sha256": sum_of(token), **limits}})
    print(token)


def remove(path, entries, settings):
    if settings.name not in entries:
        raise ValueError(f"there is no token of {settings.name}")
    write(path, {name: entry for name, entry in entries.items() if name != settings.name})


def show(_, entries, __):
    for name, entry in sorted(entries.items()):
        print(name, *(f"{what}={count}" for what, count in limits_of(entry).items()))


def write(path, entries):
    write_whole(path, json.dumps(entries, indent=1).encode() + b"\n", 0o600)


def main(arguments=None):
    settings = parser().parse_args(arguments)
    path = pathlib.Path(settings.file)
    try:
        entries = read_tokens(path) if path.exists() else {}
        {"add": add, "remove": remove, "list": show}[settings.command](path, entries, settings)
    except (OSError, ValueError) as fault:
        print(f"tokens: {fault}", file=sys.stderr)
        return 1
    return 0


if __name__ == "__main__":
    sys.exit(main())
