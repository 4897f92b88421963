"""Runs of `auditor simulate` over the public columns, for a plan: it is told 0 for each sum that it would release.

What is decided on sums doesn't depend on answers, so an order in which questions are released here is one in which `serve` answers them.
"""
import json
import os
import subprocess

from preparing.faults import Fault

TOLD = {"sum": b'{"sum":0}', "avg": b'{"num":0,"den":1}'}
DENIED = {"unsafe": b'{"denied":"unsafe"}', "wide": b'{"denied":"wide"}'}
RELEASED = "released"
DISAGREES = 14                      # the status of `simulate` at a reply that isn't one that was due
AT_ONCE = 256                       # pairs that are written before their verdicts are read


class Simulate:
    """The program over a folder, after a transcript. `start` gives a run."""

    def __init__(self, program, public, transcript=b""):
        self.program, self.public, self.pairs = os.path.abspath(program), public, pairs_of(transcript)

    def start(self):
        run = Run(self.program, self.public)
        said = run.feed(self.pairs)
        if len(said) < len(self.pairs):
            run.close()
            raise Fault(f"the history isn't one of this table: {run.complaint or 'its replies are not those that are due'}")
        return run

    def need_files(self):
        """A Fault if the program doesn't take the folder or the history."""
        with self.start() as run:
            run.finish()

    def verdict(self, question):
        """The verdict on a question that is asked first."""
        with self.start() as run:
            return run.verdict(question.line)


class Run:
    """One run. After a reply that doesn't agree it has ended."""

    def __init__(self, program, public):
        self.complaint = ""
        self.process = subprocess.Popen([program, "simulate"], cwd=public, stdin=subprocess.PIPE, stdout=subprocess.PIPE,
                                        stderr=subprocess.PIPE, start_new_session=True)

    def __enter__(self):
        return self

    def __exit__(self, *_):
        self.close()

    def feed(self, pairs):
        """The verdicts on questions with the replies that are expected to agree; fewer, if one doesn't and so ends the run."""
        said = []
        for at in range(0, len(pairs), AT_ONCE):
            some = pairs[at:at + AT_ONCE]
            self._write(b"".join(line + b"\n" + reply + b"\n" for line, reply in some))
            new = [verdict for verdict in (self._read() for _ in some) if verdict]
            said += new
            if len(new) < len(some):
                break
        return said

    def verdict(self, line):
        """The verdict on a question. Its reply is to follow."""
        self._write(line + b"\n")
        return self._read() or self._fail()

    def reply(self, question, verdict):
        """Tells what `serve` would say of it by this verdict."""
        self._write(reply_to(question, verdict) + b"\n")

    def _write(self, text):
        try:
            self.process.stdin.write(text)
            self.process.stdin.flush()
        except BrokenPipeError:
            pass                        # it has ended: there is nothing to read then

    def _read(self):
        """The next verdict, or None after the reply that didn't agree."""
        line = self.process.stdout.readline()
        if line.endswith(b"\n"):
            return json.loads(line)["verdict"]
        self.complaint = self.process.stderr.read().decode(errors="replace").strip()
        if self.process.wait() != DISAGREES:
            self._fail()
        return None

    def _fail(self):
        raise Fault(f"auditor simulate: {self.complaint or f'it ended with status {self.process.wait()}'}")

    def finish(self):
        """Ends the input, and waits for the end."""
        self.process.stdin.close()
        self.complaint = self.process.stderr.read().decode(errors="replace").strip()
        if self.process.wait():
            self._fail()

    def close(self):
        if self.process.poll() is None:
            self.process.kill()
        self.process.wait()
        for stream in (self.process.stdin, self.process.stdout, self.process.stderr):
            try:
                stream.close()
            except BrokenPipeError:
                pass


def reply_to(question, verdict):
    """The reply that agrees with a verdict, 0 for an answer."""
    return TOLD[question.ask] if verdict == RELEASED else DENIED[verdict]


def pairs_of(transcript):
    """The questions and replies of a transcript."""
    lines = [line.removesuffix(b"\r") for line in transcript.split(b"\n")]
    lines = [line for line in lines if line]
    if len(lines) % 2:
        raise Fault("the history ends with a question that has no reply")
    return list(zip(lines[::2], lines[1::2]))
