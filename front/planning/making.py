"""Makes a plan: which of the wanted questions would be answered, in which order, and what stands in the place of the others."""
import dataclasses
import itertools
import json
import time

from .merging import Merging
from .search import Search

EXTREMES = ("max", "min")           # what is asked of which depends on answers
EVERY = 2                           # seconds between two words on how far it is


class Progress:
    """Says how far it is, now and then."""

    def __init__(self, say):
        self.say, self.next = say, time.monotonic() + EVERY

    def __call__(self, text):
        if time.monotonic() >= self.next:
            self.say(text)
            self.next = time.monotonic() + EVERY


@dataclasses.dataclass
class Plan:
    """`kept` are the questions that are answered in their order, `added` those in the place of others, `counts` make no record,
    `extremes`, maxima and minima, depend on answers; `left` is left out, `few` of it for the least size, and `instead` has what stands in its place."""

    kept: list = dataclasses.field(default_factory=list)
    left: list = dataclasses.field(default_factory=list)
    added: list = dataclasses.field(default_factory=list)
    counts: list = dataclasses.field(default_factory=list)
    extremes: list = dataclasses.field(default_factory=list)
    few: set = dataclasses.field(default_factory=set)
    instead: dict = dataclasses.field(default_factory=dict)
    tries: int = 0
    whole: bool = True

    @property
    def questions(self):
        """All that is to be asked, in its order."""
        return [*self.kept, *self.added, *self.counts, *self.extremes]

    @property
    def share(self):
        """The part of the weight of sums and averages that is answered."""
        whole = sum(question.weight for question in self.kept + self.left)
        return sum(question.weight for question in self.kept) / whole if whole else 1


def make(simulate, questions, columns, settings, say):
    """The plan of some questions; after an interruption the best so far."""
    progress, plan = Progress(say), Plan()
    plan.counts = [question for question in questions if question.ask == "count"]
    plan.extremes = sorted((question for question in questions if question.ask in EXTREMES), key=lambda one: -one.weight)
    sums = [question for question in questions if question.ask in ("sum", "avg")]
    plan.few = {question for question in sums if not columns.are_enough(question.rows, settings.least)}
    many = [question for question in sums if question not in plan.few]
    searches = [Search(simulate, [question for question in many if question.column == name], progress)
                for name in dict.fromkeys(question.column for question in many)]
    try:
        search_all(searches, settings, progress)
    except KeyboardInterrupt:
        plan.whole = False
    for search in searches:
        plan.kept += [search.questions[place] for place in search.order if place in search.answered]
        plan.left += [search.questions[place] for place in search.order if place not in search.answered]
        plan.tries += search.tries
    plan.left += [question for question in sums if question in plan.few]
    merging = Merging(columns, settings.least, plan.kept)
    try:
        if plan.whole:
            merging.run(simulate, plan.left if settings.merge else [], progress)
    except KeyboardInterrupt:
        plan.whole = False
    plan.added, plan.instead = merging.added, merging.instead
    return plan


def search_all(searches, settings, progress):
    """Looks for better orders, of one column after the other, until the time is over or enough were tried."""
    end = time.monotonic() + settings.seconds
    for search in searches:
        search.begin()
    for search in searches:
        search.look(lambda: time.monotonic() >= end)
    for search in itertools.cycle(searches):
        if time.monotonic() >= end or sum(one.tries for one in searches) >= settings.orders or not any(one.left for one in searches):
            return
        if search.left:
            search.step()
        progress(said_of(searches, end))


def said_of(searches, end):
    whole = sum(search.weight(search.order) for search in searches)
    answered = sum(search.weight(search.answered) for search in searches)
    return (f"{sum(search.tries for search in searches):,} orders tried, {percent(answered / whole)} of the weight answered, "
            f"{max(0, end - time.monotonic()):.0f} s left")


def percent(share):
    return f"{100 * share:.1f}%"


def report_lines(plan):
    """The report of a plan: a line of JSON for each wanted question, and one of the whole."""
    left = set(plan.left)
    for question in sorted([*plan.kept, *plan.left, *plan.counts, *plan.extremes], key=lambda one: one.number):
        line = {"line": question.number, **json.loads(question.line), "rows": question.size, "weight": question.weight}
        line["answered"] = None if question.ask in EXTREMES else question not in left
        found = plan.instead.get(question)
        if found:
            line["instead"] = {"where": found.near.where, "rows": found.near.rows.bit_count(), "more": found.near.more}
        yield json.dumps(line, ensure_ascii=False)
    yield json.dumps({"wanted": len(plan.kept) + len(plan.left) + len(plan.counts) + len(plan.extremes), "answered": len(plan.kept) + len(plan.counts),
                      "instead": len(plan.added), "maxima": len(plan.extremes), "share": round(plan.share, 6), "orders": plan.tries,
                      "whole": plan.whole}, ensure_ascii=False)
