"""Replies in words: numbers with their decimals and units set back, denials and refusals as sentences of words.json."""

import dataclasses
import fractions
import json
import pathlib

from clients.auditor import max_words, rows_words, sum_words

from .hints import hint, marked, mended

WORDS = json.loads((pathlib.Path(__file__).resolve().parent.parent / "words.json").read_text(encoding="utf-8"))
MOST_PLACES = 6


def decimal(number, places):
    """A number with so many decimals, rounded to the nearest, halves away from 0."""
    scaled = abs(number) * 10**places
    digits = str((2 * scaled.numerator + scaled.denominator) // (2 * scaled.denominator)).rjust(places + 1, "0")
    sign = "-" if number < 0 and digits.strip("0") else ""
    return sign + (f"{digits[:-places]}.{digits[-places:]}" if places else digits)


def step(note):
    """The unit in which a column's numbers are whole: 0.01 for two decimals."""
    return decimal(fractions.Fraction(1, 10 ** (note.get("decimals") or 0)), note.get("decimals") or 0)


def number_words(number, note):
    """A number of steps as people read it, with its column's decimals; a fraction with six more, and exactly too."""
    places = note.get("decimals") or 0
    exact = fractions.Fraction(number) / 10**places
    unit = f" {note['unit']}" if note.get("unit") else ""
    for shown in range(places, places + MOST_PLACES + 1):
        if (exact * 10**shown).denominator == 1:
            return decimal(exact, shown) + unit
    return f"{decimal(exact, places + MOST_PLACES)}{unit} (exactly {exact.numerator}/{exact.denominator})"


def answer_of(reply):
    """The number of a reply, an average divided, or None if it isn't an answer."""
    if "num" in reply:
        return fractions.Fraction(reply["num"], reply["den"])
    return next((reply[key] for key in ("count", "sum", "max", "min") if key in reply), None)


def reply_words(question, reply, kinds, notes, protected=()):
    """A reply in a line, or for a refused condition in several: a mark under the byte, why, and what to write.

    `protected` has the column and the condition of each total that is never answered.
    """
    number = answer_of(reply)
    if number is not None:
        return number_words(number, notes.get(question.column, {}) if question.ask != "count" else {})
    if "denied" in reply:
        if is_protected(question, protected):
            return not_answered(reply) + WORDS["note"]["protected"]
        return not_answered(reply) + denial_words(reply["denied"], question)
    if reply.get("refused") == "where":
        return condition_words(question.where, reply["at"], kinds, notes)
    return "refused: " + WORDS["refused"].get(reply.get("refused"), f"The program says {json.dumps(reply)}.")


def is_protected(question, protected):
    """Whether a question is written as one of the totals that are never answered."""
    return (question.column, question.where.strip()) in [(column, where.strip()) for column, where in protected]


def denial_words(reason, question):
    """What a denial means, and how to ask why the question is denied, if there is a certificate of that."""
    how = f" To see why, ask: {dataclasses.replace(question, by=(), csv=False, why=True).typed()}" if reason == "unsafe" else ""
    return WORDS["denied"].get(reason, reason) + how


def not_answered(reply):
    """That a question isn't answered, and by which of several tables."""
    return f"not answered by {reply['table']}: " if reply.get("table") else "not answered: "


def condition_words(condition, at, kinds, notes):
    """Where a condition goes wrong, why, and how it would be written, if that can be said."""
    decimals = {name: note.get("decimals") or 0 for name, note in notes.items()}
    why = hint(condition, at, kinds, decimals)
    lines = [
        marked(condition, at),
        "refused: " + (why + ("" if why.endswith(("?", ".")) else ".") if why else WORDS["refused"]["where"]),
    ]
    better = mended(condition)
    return "\n".join(lines + ([f"Write: {better}"] if better != condition else []))


def ended_words(said, status):
    """Why the program ended, in its words, and what to do about it."""
    known = WORDS["ended"].get(str(status))
    return (said or f"it ended with status {status}") + (f" ({known})" if known else "")


def why_words(line, target, note):
    """What `explain` says of a question, in a sentence. `target` has the words for what would be known, if it is a total."""
    if line["verdict"] != "unsafe":
        return WORDS["why"].get(line["verdict"], json.dumps(line))
    if "proof" in line:
        return WORDS["why"]["proof"]
    return max_words(line, lambda number: number_words(number, note)) if "answer" in line else sum_words(line, target)


def near_words(said):
    """What is near a question, in a sentence."""
    if said["near"] is None:
        return WORDS["near"]["none"] if said["verdict"] in ("unsafe", "wide", "withheld") else verdict_words(said)
    return f"{said['near']['where']}: {rows_words(said['rows'], said['more'], said['fewer'])}"


def verdict_words(reply):
    """What would be said, in a sentence."""
    said = WORDS["verdict"].get(reply.get("verdict"), json.dumps(reply))
    return f"{said} {WORDS['note']['follows']}" if reply.get("new") is False else said
