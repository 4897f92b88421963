"""What the door itself says: a code for each cause, with its status and its sentence.

The sentences stand in words.json, under `error` and `away`; docs/ERRORS.md lists the codes.
"""
import json
import pathlib

WORDS = json.loads((pathlib.Path(__file__).resolve().parent.parent / "words.json").read_text(encoding="utf-8"))

# Programs go by these codes: never change one.
STATUS = {
    "lines": 400, "broken": 400, "token": 401, "site": 403, "address": 404, "missing": 404, "method": 405, "slow": 408, "long": 413, "type": 415,
    "host": 421, "few": 422, "question": 422, "unicode": 422, "total": 422, "used": 429, "unexplained": 501, "renewed": 501, "questions": 503, "verdicts": 503,
    "certificates": 503, "away": 503, "late": 504}


class Turned(Exception):
    """A request that the door itself answers: by a code, with the values of its sentence or a sentence of its own, and after how many seconds
    it is worth trying again, if it is."""

    def __init__(self, code, again=0, headers=None, sentence=None, **values):
        self.code, self.status = code, STATUS[code]
        self.text = sentence or WORDS["error"][code].format(**values)
        self.headers = {**(headers or {}), **({"Retry-After": str(int(again))} if again else {})}
        super().__init__(self.text)

    @property
    def said(self):
        return {"error": self.text, "code": self.code}


def sentence_of(cause):
    """What askers are told of a program that is away: one of the door's own sentences, whatever the program said."""
    return WORDS["away"].get(cause, WORDS["away"]["other"])


def away(cause):
    """The program is away, for a cause of words.json."""
    return Turned("away", again=1, sentence=sentence_of(cause))
