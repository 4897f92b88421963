"""Places for those who wait, of which no one asker gets more than a share."""
import collections
import contextlib

from .faults import Turned


class Places:
    """At most so many wait, and so many of one asker; of askers whom nothing tells apart all."""

    def __init__(self, most, each, code):
        self.most, self.each, self.code = most, each, code
        self.taken, self.of = 0, collections.Counter()

    @contextlib.contextmanager
    def one(self, asker):
        if self.taken >= self.most or asker.place and self.of[asker.place] >= self.each:
            raise Turned(self.code, again=1)
        self.taken += 1
        self.of[asker.place] += 1
        try:
            yield
        finally:
            self.taken -= 1
            self.of[asker.place] -= 1
            if not self.of[asker.place]:
                del self.of[asker.place]
