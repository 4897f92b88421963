"""Questions a second through the door, beside a program that answers each line alone, and a start over a long history.

    AUDITOR=.. /usr/bin/python3 bench.py [SECONDS [ROWS]]

Each client asks one question after the other: sums, maxima and counts over random intervals of 1,000 rows, or of as
many as are given, hardly one twice. Each sync takes 2.5 ms (slow_sync.c), for the door and the program alike. The clients' own work is on the same
processors. The last row is of a door with tokens, limits and a list of who asked. The last lines say what has to be reached; the exit status is 1 if
something isn't. AUDITOR has to be the built program: one that is compiled without optimisation takes a millisecond of a processor for each question,
which no batch makes less.
"""
import asyncio
import os
import pathlib
import random
import subprocess
import sys
import tempfile
import time

from kit import AUDITOR, FRONT, HERE, Door, Folder, health, line_of

SECONDS = float(sys.argv[1]) if len(sys.argv) > 1 else 5
ROWS = int(sys.argv[2]) if len(sys.argv) > 2 else 1000
LONG = 60_000                       # answers of the long history
HEAD = b"POST /ask HTTP/1.1\r\nHost: door\r\n%sContent-Type: application/json\r\nContent-Length: %d\r\n\r\n"
MOST = 10**12                       # each limit of its token


class Asker(asyncio.Protocol):
    """A client that asks the next question as soon as it has the reply to the last one, with little work of its own."""

    def __init__(self, folder, chance, end, took, token):
        self.folder, self.chance, self.end, self.took = folder, chance, end, took
        self.login = f"Authorization: Bearer {token}\r\n".encode() if token else b""
        self.done = asyncio.get_running_loop().create_future()
        self.got = b""

    def connection_made(self, transport):
        self.transport = transport
        self.ask()

    def ask(self):
        line = self.folder.draw(self.chance)[1]
        self.began = time.perf_counter()
        self.transport.write(HEAD % (self.login, len(line)) + line)

    def data_received(self, data):
        self.got += data
        head, found, body = self.got.partition(b"\r\n\r\n")
        if not found or not body.endswith(b"\n"):
            return
        assert head.startswith(b"HTTP/1.1 200"), self.got
        self.took.append(time.perf_counter() - self.began)
        self.got = b""
        if time.monotonic() < self.end:
            self.ask()
        else:
            self.done.set_result(None)

    def connection_lost(self, fault):
        if not self.done.done():
            self.done.set_exception(fault or ConnectionError("the door closed"))


async def ask_for_a_while(folder, socket, number, token):
    """Seconds that each question took, and the rate."""
    took, loop, began = [], asyncio.get_running_loop(), time.monotonic()
    askers = []
    for one in range(number):
        chance = random.Random(f"{number} {one} {time.time()}")
        _, asker = await loop.create_unix_connection(lambda: Asker(folder, chance, began + SECONDS, took, token), socket)
        askers.append(asker)
    await asyncio.gather(*(asker.done for asker in askers))
    for asker in askers:
        asker.transport.close()
    return sorted(took), len(took) / (time.monotonic() - began)


def processor(number):
    """Seconds of a processor that a process has used."""
    parts = pathlib.Path(f"/proc/{number}/stat").read_text().rsplit(")", 1)[1].split()
    return (int(parts[11]) + int(parts[12])) / os.sysconf("SC_CLK_TCK")


def add_token(folder):
    """A token with limits, and the door's arguments for it."""
    file = folder.path / "tokens.json"
    limits = (word for what in ("records", "answers", "verdicts", "bytes") for word in (f"--{what}", str(MOST)))
    run = subprocess.run([sys.executable, FRONT / "tokens.py", "--file", file, "add", "ann", *limits], check=True, capture_output=True, text=True)
    return run.stdout.strip(), ["--tokens", file, "--log", folder.path / "asked.jsonl"]


async def measure(batch, number, with_tokens=False):
    folder = Folder(rows=ROWS)
    token, words = add_token(folder) if with_tokens else ("", [])
    door = Door(folder, "--batch", batch, *words).start()
    async with door.session() as session:
        await door.ready(session)
        processes = [door.process.pid, *door.programs()]
        before = [processor(one) for one in processes]
        took, rate = await ask_for_a_while(folder, door.socket, number, token)
        used = [(processor(one) - past) / len(took) * 1000 for one, past in zip(processes, before)]
        said = await health(session)
    door.stop()
    assert folder.simulate() == (0, ""), "the transcript"
    folder.remove()
    half, most = took[len(took) // 2] * 1000, took[len(took) * 99 // 100] * 1000
    group = said["asked"] / max(said["groups"], 1)
    print(f"| {batch}{', tokens' if token else ''} | {number} | {rate:,.0f} | {half:.1f} ms | {most:.1f} ms | {group:.1f} | {used[0]:.2f} ms, {used[1]:.2f} ms |",
          flush=True)
    return {"rate": rate, "half": half, "door": used[0]}


def write_long_history(folder):
    """A journal and a transcript of many answers: sums between even places, so that no row stands alone."""
    rows = len(folder.rows)
    bounds = [(low, high) for low in range(0, rows, 2) for high in range(low + 1, rows, 2)]
    lines = [line_of("sum", low, high) for low, high in random.Random(1).sample(bounds, LONG)]
    run = subprocess.run([AUDITOR, "serve", "--batch", "64"], cwd=folder.path, input=b"\n".join(lines) + b"\n", capture_output=True)
    replies = run.stdout.split(b"\n")[:-1]
    with open(folder.public / "transcript.jsonl", "wb") as file:
        file.writelines(line + b"\n" + reply + b"\n" for line, reply in zip(lines, replies))
    return sum(reply.startswith(b'{"sum"') for reply in replies)


async def start_over_a_long_history():
    folder = Folder(rows=ROWS)
    answers = write_long_history(folder)
    door, began = Door(folder), time.monotonic()
    door.start()
    async with door.session() as session:
        await door.ready(session)
        ready = time.monotonic() - began
        said = await health(session)
    memory = next(int(line.split()[1]) for line in pathlib.Path(f"/proc/{door.process.pid}/status").read_text().split("\n")
                  if line.startswith("VmHWM")) / 1024
    door.stop()
    folder.remove()
    assert said["records"] == answers == LONG, (said, answers)
    print(f"a start over {answers:,} answers: ready after {ready:.2f} s, at most {memory:.0f} MB", flush=True)
    return ready, memory


async def main():
    try:
        os.sched_setscheduler(0, os.SCHED_RR, os.sched_param(1))
        print("before all else that runs on this machine")
    except PermissionError:
        print("not root: at the priority of everything else")
    library = pathlib.Path(tempfile.mkdtemp()) / "slow_sync.so"
    subprocess.run(["cc", "-shared", "-fPIC", "-o", library, HERE / "slow_sync.c"], check=True)
    os.environ["SLOW"] = str(library)
    print(f"load {os.getloadavg()[0]:.1f} on {os.cpu_count()} processors, {SECONDS:g} s each, syncs of 2.5 ms")
    print("| batch | clients | questions a second | half within | 99 of 100 within | questions a group | processor a question: door, program |")
    print("|---|---|---|---|---|---|---|")
    got = {(batch, number): await measure(batch, number) for batch in (1, 64) for number in (1, 16, 64)}
    with_tokens = await measure(64, 64, with_tokens=True)
    del os.environ["SLOW"]
    ready, memory = await start_over_a_long_history()
    reached = [
        ("64 clients: times the rate of batch 1", got[64, 64]["rate"] / got[1, 64]["rate"], 4, True),
        ("64 clients with tokens: times the rate of batch 1", with_tokens["rate"] / got[1, 64]["rate"], 4, True),
        ("64 clients: times the latency of one client", got[64, 64]["half"] / got[64, 1]["half"], 3, False),
        ("64 clients: ms of a processor for the door, a question", got[64, 64]["door"], 0.5, False),
        (f"a start over {LONG:,} answers: seconds", ready, 2, False),
        (f"a start over {LONG:,} answers: MB", memory, 100, False)]
    missed = 0
    for text, value, bound, least in reached:
        well = value >= bound if least else value <= bound
        missed += not well
        print(f"{'reached' if well else 'MISSED '}  {text}: {value:.2f}, {'at least' if least else 'at most'} {bound}")
    sys.exit(missed > 0)


if __name__ == "__main__":
    asyncio.run(main())
