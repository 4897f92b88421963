"""What stands in the place of a question that a plan leaves out: the same over more rows, which is answered after all others.

The rows that come in are in no other question of the same columns that is answered, so that no number of a report is in two cells of a
table.
"""
import dataclasses

from preparing.faults import Fault

from .nearness import Near, merged
from .parts import parts_of
from .simulating import DENIED, RELEASED, reply_to
from .wanted import Wanted

MOST = 200                          # questions that are tried in the place of one


@dataclasses.dataclass(frozen=True)
class Merged:
    """The question in another's place, and by how much it is over more rows."""

    question: Wanted
    near: Near


class Merging:
    """Finds them in one run of the program, after the questions that are answered."""

    def __init__(self, columns, least, kept):
        self.columns, self.least, self.kept = columns, least, kept
        self.instead, self.added = {}, []

    def run(self, simulate, left, say=lambda text: None):
        """Has all that is kept asked, in its order, and then finds for each that is left out, the heaviest first, what stands in its place."""
        with simulate.start() as run:
            self._ask_kept(run)
            for done, question in enumerate(sorted(left, key=lambda one: -one.weight)):
                say(f"{done:,} of {len(left):,} left out were looked at, {len(self.instead):,} have another in their place")
                found = self._covering(question) or self._found(run, question)
                if found:
                    self.instead[question] = found

    def _ask_kept(self, run):
        said = run.feed([(question.line, reply_to(question, RELEASED)) for question in self.kept])
        if len(said) < len(self.kept) or set(said) > {RELEASED}:
            raise Fault("auditor simulate disagrees with itself on the plan: the folder or the program changed meanwhile")

    def family(self, question):
        """Questions of one family stand in the same table of a report: they ask the same by the same columns."""
        parts = parts_of(question.where, self.columns.publics)
        return question.ask, question.column, tuple(sorted(part.name or part.text for part in parts))

    def _covering(self, question):
        """What stands in another's place and is over all rows of this question too."""
        for one in self.added:
            if self.family(one) == self.family(question) and not question.rows & ~one.rows:
                more = (one.rows & ~question.rows).bit_count()
                return Merged(one, Near(one.where, one.rows, more, 0))
        return None

    def _found(self, run, question):
        family, taken = self.family(question), 0
        for one in [*self.kept, *self.added]:
            taken |= one.rows if self.family(one) == family else 0
        tried = [near for near in merged(question.where, self.columns, self.least) if not near.rows & ~question.rows & taken]
        for near in tried[:MOST]:
            other = question.over(near.where, near.rows)
            verdict = run.verdict(other.line)
            if verdict != RELEASED and verdict not in DENIED:
                return None
            run.reply(other, verdict)
            if verdict == RELEASED:
                self.added.append(other)
                return Merged(other, near)
        return None
