"""Question lines and reply lines, as far as the door reads them.

Promised: a body that `line_of` lets through is exactly one line for the program, byte for byte, and the program has a
reply for it. Not promised: that the line is a question. That is the program's to say.
"""
import json
import re

from .faults import Turned

LONGEST = 8192                      # bytes of a line, as the program has it
HISTORY = 65_536                    # records that a journal holds

RELEASED = (b'{"sum"', b'{"num"', b'{"max"', b'{"min"')
DECIDED = RELEASED + (b'{"denied"',)
DECISION = re.compile(rb'\{"(?:sum|max|min)":-?\d+\}|\{"num":-?\d+,"den":\d+\}|\{"denied":"(?:unsafe|wide)"\}')
UNDECIDED = re.compile(rb'\{"count":\d+\}|\{"refused":"[a-z]+"(?:,"at":\d+)?\}')

# Which questions a reply may belong to. A refusal may belong to any.
ASKED_OF = {
    b'{"count"': ("count",),
    b'{"sum"': ("sum",),
    b'{"num"': ("avg",),
    b'{"max"': ("max",),
    b'{"min"': ("min",),
    b'{"denied"': ("sum", "avg", "max", "min"),
}


def line_of(body):
    """The one line that a body is, without the line end after it.

    A line end within would make a second question, and every later reply would go to the wrong asker. A line of nothing
    has no reply. Neither passes.
    """
    for end in (b"\r\n", b"\n"):
        if body.endswith(end):
            body = body[:-len(end)]
            break
    if not body or b"\n" in body or b"\r" in body:
        raise Turned("lines")
    if len(body) > LONGEST:
        raise Turned("long")
    return body


def read_question(line):
    """The question as a dict, or None if Python's reader of JSON finds no object in it.

    Of a key that comes twice the last value counts, here as in the program.
    """
    try:
        question = json.loads(line.decode("utf-8"))
    except (ValueError, RecursionError):
        return None
    return question if isinstance(question, dict) else None


def fits(line, reply):
    """Whether a reply has the form of a reply to this question. That it is the right one can't be seen."""
    if not DECISION.fullmatch(reply) and not UNDECIDED.fullmatch(reply):
        return False
    form = reply[:reply.find(b":")]
    if form == b'{"refused"':
        return True
    question = read_question(line)
    return question is not None and question.get("ask") in ASKED_OF.get(form, ())
