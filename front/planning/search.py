"""Looks for an order of questions in which most of their weight is answered.

The heaviest first is nearly the best already. Then what isn't answered is put to the front, one to three questions at a time, and
stays there if no weight is lost. Questions of different secret columns don't touch each other, so each column is searched for itself.
"""
import itertools
import math
import random

from preparing.faults import Fault

from .simulating import DENIED, RELEASED, reply_to

FRONTS = (1, 1, 1, 2, 3)            # how many questions are put to the front, as often as they stand here


class Unexpected(Exception):
    """A verdict that is another one than was expected."""

    def __init__(self, place, verdict):
        super().__init__(verdict)
        self.place, self.verdict = place, verdict


class Search:
    """The questions of one column. `order` and `answered` are the best so far, as places in the list of questions."""

    def __init__(self, simulate, questions, say=lambda text: None, seed=1):
        self.simulate, self.questions, self.say, self.chance = simulate, questions, say, random.Random(seed)
        self.order = sorted(range(len(questions)), key=lambda place: -questions[place].weight)
        self.answered, self.never, self.tries, self.begun = set(), set(), 0, False

    def weight(self, places):
        return sum(self.questions[place].weight for place in places)

    @property
    def left(self):
        """What isn't answered, and may be in another order."""
        return [place for place in self.order if place not in self.answered and place not in self.never]

    def begin(self):
        """Asks the heaviest first."""
        self.answered = self.asked_in(self.order, {})
        self.begun = True

    def look(self, is_over):
        """Asks as listed, and keeps that if it gives more. What is denied even if it is asked first never comes to the front."""
        listed = list(range(len(self.questions)))
        answered = None if is_over() else self.asked_in(listed, {}, self.lost)
        if answered is not None and self.weight(answered) > self.weight(self.answered):
            self.order, self.answered = listed, answered
        for place in self.left:
            self.say(f"{self.questions[place].column}: of what is left {len(self.never):,} would be denied even if it were asked first")
            if not is_over() and self.simulate.verdict(self.questions[place]) != RELEASED:
                self.never.add(place)

    @property
    def lost(self):
        return self.weight(self.order) - self.weight(self.answered)

    def step(self):
        """Tries another order, and keeps it if no weight is lost."""
        left = self.left
        front = self.chance.sample(left, min(len(left), self.chance.choice(FRONTS)))
        rest = [place for place in self.order if place not in front]
        order = front + [place for place in rest if place in self.answered] + [place for place in rest if place not in self.answered]
        expected = {**dict.fromkeys(self.answered, RELEASED), **dict.fromkeys(self.never, "unsafe")}
        answered = self.asked_in(order, expected, self.lost)
        self.tries += 1
        if answered is not None:
            self.order, self.answered = order, answered

    def asked_in(self, order, expected, spare=math.inf):
        """Which questions are answered in this order; None once more weight than the spare one is lost.

        What is expected is told without waiting. At a verdict that is another one the run ends, and the next one expects that.
        """
        while self.weight(place for place, verdict in expected.items() if verdict != RELEASED) <= spare:
            with self.simulate.start() as run:
                try:
                    return self._asked(run, order, expected, spare)
                except Unexpected as found:
                    expected[found.place] = found.verdict
        return None

    def _asked(self, run, order, expected, spare):
        """The same by one run."""
        answered, lost = set(), 0
        if not self.begun:
            self.answered = answered        # an interrupted plan has what is answered so far
        for known, places in itertools.groupby(order, key=expected.__contains__):
            for place, verdict in self._told(run, list(places), expected) if known else self._heard(run, places):
                if verdict == RELEASED:
                    answered.add(place)
                else:
                    lost += self.questions[place].weight
                if lost > spare:
                    return None
        return answered

    def _told(self, run, places, expected):
        """The verdicts on questions whose replies are told at once."""
        pairs = [(self.questions[place].line, reply_to(self.questions[place], expected[place])) for place in places]
        for place, verdict in zip(places, run.feed(pairs)):
            if self._decided(place, verdict) != expected[place]:
                raise Unexpected(place, verdict)
            yield place, verdict

    def _heard(self, run, places):
        """The verdicts on questions, each waited for."""
        for done, place in enumerate(places):
            verdict = self._decided(place, run.verdict(self.questions[place].line))
            run.reply(self.questions[place], verdict)
            self.say(f"{self.questions[place].column}: an order is tried, {done:,} questions of it so far")
            yield place, verdict

    def _decided(self, place, verdict):
        if verdict != RELEASED and verdict not in DENIED:
            raise Fault(f"line {self.questions[place].number:,}: auditor simulate says {verdict}, as of every question once a history is full")
        return verdict
