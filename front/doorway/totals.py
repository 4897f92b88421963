"""A total over all tables of a door, which are the parts of a larger one.

It is the sum of the parts' answers if each part answers. Before anything is asked each part's verdict is had, so that no
part's history is used for a total that can't be given. A part in which no row satisfies the condition adds nothing.
"""
import asyncio
import json

from .faults import Turned
from .lines import read_question

EMPTY = {"refused": "empty"}
VERDICTS_DENIED = {"unsafe": {"denied": "unsafe"}, "wide": {"denied": "wide"}}


async def total(parts, line, asker):
    """The total as a dict. `parts` are the handlers of the tables by their names."""
    question = read_question(line)
    kind = question.get("ask") if question else None
    if kind not in ("sum", "count"):
        raise Turned("total")
    if kind == "sum":
        refused = await _each(parts, _denial, line, asker)
        refused = {name: reply for name, reply in refused.items() if reply}
        if refused:
            return {"total": None, "without": list(refused), "parts": refused}
    return _add_up(kind, await _each(parts, _reply, line, asker))


async def _each(parts, call, line, asker):
    replies = await asyncio.gather(*(call(part, line, asker) for part in parts.values()))
    return dict(zip(parts, replies))


async def _denial(part, line, asker):
    """The denial or the door's own text that is due, or None if the question would be answered or refused."""
    if part.table.is_stopped():
        return {"error": part.table.state, "code": "away"}
    try:
        return VERDICTS_DENIED.get(json.loads(await part.verdict(line, asker))["verdict"])
    except Turned as turned:
        return turned.said


async def _reply(part, line, asker):
    try:
        return json.loads(await part.ask(line, asker))
    except Turned as turned:
        return turned.said


def _add_up(kind, replies):
    without = [name for name, reply in replies.items() if kind not in reply and reply != EMPTY]
    answers = [reply[kind] for reply in replies.values() if kind in reply]
    if without:
        return {"total": None, "without": without, "parts": replies}
    return {"total": {kind: sum(answers)} if answers else EMPTY, "parts": replies}
