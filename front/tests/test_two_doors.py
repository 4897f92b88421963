"""The blocks for nginx, before a real nginx on loopback: two parts of a table on two doors, and one door with a login."""
import asyncio
import contextlib
import json
import os
import pathlib
import random
import shutil
import signal
import socket
import subprocess
import sys
import tempfile
import time
import unittest

import aiohttp

from browser import Browser
from kit import FRONT, PATIENCE, SEED, Door, Folder, ask, free_port, line_of

NGINX = shutil.which("nginx") or shutil.which("/usr/sbin/nginx")
NAME = "auditor.example.org"
SHELL = """worker_processes 1; daemon off; pid {folder}/nginx.pid; error_log {folder}/nginx.err;
events {{ worker_connections 4096; }}
http {{ access_log off; client_body_temp_path {folder}/body; proxy_temp_path {folder}/proxy; fastcgi_temp_path {folder}/f;
uwsgi_temp_path {folder}/u; scgi_temp_path {folder}/s; include {folder}/block.conf; }}
"""


def listens(port):
    with socket.socket() as probe:
        return probe.connect_ex(("127.0.0.1", port)) == 0


class Nginx:
    """A real nginx over one of our blocks, with ports of loopback in place of names, and plain HTTP in place of certificates or, if it is to
    be `secret`, with one that it signed itself."""

    def __init__(self, block, port, changes, secret=False):
        self.folder = pathlib.Path(tempfile.mkdtemp(prefix="nginx-"))
        self.folder.chmod(0o755)
        text = (FRONT / "units" / block).read_text()
        (self.folder / "users").write_text("ann:{PLAIN}secret\nbob:{PLAIN}secret\n")
        (self.folder / "tables.json").write_text('["north","south"]\n')
        self.plain = free_port()
        plain = {"listen 443 ssl;": f"listen 127.0.0.1:{port};", "    ssl_certificate /etc/nginx/auditor.pem;\n": "",
                 "    ssl_certificate_key /etc/nginx/auditor.key;\n": ""}
        if secret:
            self.sign()
        changes = {**({"listen 443 ssl;": f"listen 127.0.0.1:{port} ssl;"} if secret else plain), **changes,
                   "listen 80;": f"listen 127.0.0.1:{self.plain};", "/etc/nginx/auditor.": f"{self.folder}/",
                   "/run/auditor-nginx/": f"{self.folder}/"}
        for old, new in changes.items():
            assert old in text, old
            text = text.replace(old, new)
        (self.folder / "block.conf").write_text(text)
        (self.folder / "nginx.conf").write_text(SHELL.format(folder=self.folder))
        self.process = subprocess.Popen([NGINX, "-c", self.folder / "nginx.conf", "-e", self.folder / "nginx.err"])
        end = time.monotonic() + PATIENCE
        while not listens(port) and time.monotonic() < end:
            time.sleep(0.05)

    def sign(self):
        """Makes a certificate for the name of the block."""
        subprocess.run(["openssl", "req", "-x509", "-newkey", "rsa:2048", "-nodes", "-days", "2", "-subj", f"/CN={NAME}", "-addext",
                        f"subjectAltName=DNS:{NAME},IP:127.0.0.1", "-keyout", self.folder / "key", "-out", self.folder / "pem"],
                       check=True, capture_output=True)

    def close(self):
        self.process.send_signal(signal.SIGTERM)
        self.process.wait(PATIENCE)
        shutil.rmtree(self.folder)


@unittest.skipUnless(NGINX, "nginx is wanted")
class TwoDoors(unittest.IsolatedAsyncioTestCase):
    def setUp(self):
        self.port = free_port()
        self.path = pathlib.Path(tempfile.mkdtemp(prefix="two-"))
        self.parts, self.doors, places = {}, {}, {}
        for place, name in enumerate(("north", "south")):
            part = self.parts[name] = Folder(80 + 40 * place, SEED + place, self.path / name / "parts" / name)
            part.path.parent.parent.chmod(0o755)
            address = f"127.0.0.{place + 1}"
            where = f"{address}:{free_port(address)}"
            places[f"10.0.0.1{place + 1}:8087"] = where
            door = Door(part, "--table", name, "--folder", f"{part.path.parent}/{{table}}", "--host", NAME, plain=True)
            door.words[door.words.index("--listen") + 1] = where
            self.doors[name] = door.start()
        # Two doors: that north has its answers, and south as well, is seen through one address alone. No machine asks faster than this.
        self.nginx = Nginx("nginx-parts.conf", self.port, {**places, "rate=20r/s": "rate=1000000r/s", "rate=50r/s": "rate=1000000r/s"})

    def tearDown(self):
        self.nginx.close()
        for door in self.doors.values():
            door.end()
        shutil.rmtree(self.path, ignore_errors=True)

    def session(self, user="ann"):
        return aiohttp.ClientSession(f"http://127.0.0.1:{self.port}", headers={"Host": NAME},
                                     auth=aiohttp.BasicAuth(user, "secret") if user else None)

    async def ready(self, session, name):
        end = time.monotonic() + PATIENCE
        while time.monotonic() < end:
            with contextlib.suppress(aiohttp.ClientError, OSError):
                async with session.get(f"/{name}/health") as response:
                    if response.status == 200:
                        return
            await asyncio.sleep(0.05)
        self.fail(self.parts[name].said())

    async def client(self, session, number, count):
        chance = random.Random(f"{SEED} {number}")
        for _ in range(count):
            name, part = chance.choice(list(self.parts.items()))
            (kind, low, high), line = part.draw(chance)
            status, body = await ask(session, line, f"/{name}/ask")
            self.assertEqual(status, 200, body)
            if b"denied" not in body:
                self.assertEqual(json.loads(body), part.due(kind, low, high))

    async def test_two_parts_on_two_doors_are_asked_at_one_address(self):
        async with self.session(user=None) as session:
            for path in ("/", "/tables.json", "/north/health", "/south/transcript.jsonl"):
                async with session.get(path) as response:
                    self.assertEqual(response.status, 401, path)
        async with self.session() as session:
            for name in self.parts:
                await self.ready(session, name)
            async with session.get("/tables.json") as response:
                self.assertEqual(await response.json(), ["north", "south"])
            await asyncio.gather(*(self.client(session, number, 10) for number in range(16)))
            # A total over both machines is the sum of the two answers.
            line = line_of("sum", 0, 79)
            replies = [json.loads((await ask(session, line, f"/{name}/ask"))[1]) for name in self.parts]
            self.assertEqual(sum(one["sum"] for one in replies), sum(part.due("sum", 0, 79)["sum"] for part in self.parts.values()))
            # One machine is away: the other answers on, and the proxy says that this one doesn't.
            self.doors["south"].stop(signal.SIGKILL)
            self.assertEqual((await ask(session, line_of("count", 0, 9), "/north/ask"))[0], 200)
            self.assertEqual((await ask(session, line_of("count", 0, 9), "/south/ask"))[0], 502)
            self.doors["south"].start()
            await self.ready(session, "south")
            self.assertEqual((await ask(session, line_of("count", 0, 9), "/south/ask"))[0], 200)
            self.assertEqual((await ask(session, b"x" * 9000, "/north/ask"))[0], 413)
        for name, part in self.parts.items():
            self.assertEqual(self.doors[name].stop(), 0)
            self.assertEqual(part.simulate(), (0, ""))
            self.assertEqual(part.replay(), [reply for _, reply in part.transcript()])

    async def test_a_name_that_the_door_was_not_given_is_turned_away(self):
        async with self.session() as session:
            await self.ready(session, "north")
            async with session.get("/north/health", headers={"Host": "evil.example"}) as response:
                self.assertEqual(response.status, 421)


@unittest.skipUnless(NGINX, "nginx is wanted")
class OneDoor(unittest.IsolatedAsyncioTestCase):
    """The block before one door. Its rates are so low that hardly one request more is let in while they ask."""

    block, base = "nginx.conf", ""

    async def asyncSetUp(self):
        self.folder = Folder(60)
        self.folder.path.chmod(0o755)
        self.port, self.path = free_port(), f"{self.folder.path}/door.sock"
        self.door, self.nginx = Door(self.folder, "--host", NAME), None

    async def asyncTearDown(self):
        if self.nginx:
            self.nginx.close()
        self.door.end()
        self.folder.remove()

    async def begin(self, secret=False, more=(), **rates):
        changes = {**{f"rate={rate}r/s": "rate=1r/m" for rate in rates.values()}, **dict(more)}
        self.nginx = Nginx(self.block, self.port, {**self.places(), **changes}, secret)
        async with self.door.start().session() as session:
            await self.door.ready(session, path=f"{self.base}/health", Host=NAME)
        os.chmod(self.path, 0o666)

    def places(self):
        return {"/run/auditor-door/http.sock": self.path}

    def session(self, address="127.0.0.1", limit=0):
        return aiohttp.ClientSession(f"http://127.0.0.1:{self.port}", headers={"Host": NAME},
                                     connector=aiohttp.TCPConnector(local_addr=(address, 0), limit=limit))

    async def count(self, session, who="", word="secret"):
        auth = aiohttp.BasicAuth(who, word) if who else None
        async with session.post(f"{self.base}/ask", data=line_of("count", 0, 9), headers={"Content-Type": "application/json"}, auth=auth) as response:
            if response.status == 429:
                self.assertEqual((response.headers["Retry-After"], list(await response.json())), ("1", ["error", "code"]))
            return response.status

    async def test_login_and_the_limit_of_one_person_are_the_proxys(self):
        await self.begin(login=20)
        async with self.session() as session:
            self.assertEqual(await self.count(session), 401)
            statuses = await asyncio.gather(*(self.count(session, "ann") for _ in range(180)))
            self.assertEqual(set(statuses), {200, 429})
            self.assertGreaterEqual(statuses.count(200), 81)
            self.assertLess(statuses.count(200), 100)
            async with self.session("127.0.0.2") as other:
                self.assertEqual(await self.count(other, "bob"), 200)

    async def test_an_outsider_locks_nobody_out(self):
        """Without a password, under ann's name, from another address."""
        await self.begin(login=20, address=50)
        async with self.session("127.0.0.9", 20) as outside, self.session() as inside:
            statuses = await asyncio.gather(*(self.count(outside, "ann", "wrong") for _ in range(300)))
            self.assertEqual(set(statuses), {401, 429})
            self.assertEqual([await self.count(inside, "ann") for _ in range(40)], [200] * 40)

    async def test_tokens_work_behind_tls(self):
        """From Python and R and in a terminal."""
        mine = await self.begin_with_a_token()
        address, due = f"https://127.0.0.1:{self.port}", self.folder.due("sum", 0, 59)["sum"]
        python = f"import auditor, os; print(auditor.connect('{address}', token=os.environ.get('AUDITOR_TOKEN')).sum('salary'))"
        script = f"source('{FRONT}/clients/auditor.R'); auditor_login(token = Sys.getenv('AUDITOR_TOKEN')); cat(auditor_sum('{address}', 'salary'))"
        in_r = [["Rscript", "--vanilla", "-e", script]] if shutil.which("Rscript") else []
        for token, status in ((mine, 0), ("", 1), ("x", 1)):
            environment = {**os.environ, **dict.fromkeys(("SSL_CERT_FILE", "CURL_CA_BUNDLE"), str(self.nginx.folder / "pem")), "AUDITOR_TOKEN": token, "PYTHONPATH": str(FRONT / "clients")}
            for words in ([sys.executable, "-c", python], [sys.executable, FRONT / "ask.py", address, "sum salary"], *in_r):
                run = await asyncio.to_thread(subprocess.run, words, capture_output=True, text=True, env=environment)
                self.assertEqual((run.returncode, run.stdout.strip()), (status, str(due) if not status else ""), run.stderr)
                self.assertTrue(not status or "who asks?" in run.stderr, run.stderr)

    async def begin_with_a_token(self):
        """With the block's login left out, and one token."""
        file = self.folder.path / "tokens.json"
        made = subprocess.run([sys.executable, FRONT / "tokens.py", "--file", file, "add", "ann"], capture_output=True, text=True, check=True)
        self.door.words += ["--tokens", str(file), "--host", "127.0.0.1"]
        await self.begin(secret=True, more={'    auth_basic "auditor";\n': "", "    auth_basic_user_file /etc/nginx/auditor.users;\n": ""})
        return made.stdout.strip()

    async def test_the_page_works_with_a_token_behind_tls(self):
        mine = await self.begin_with_a_token()
        said = await asyncio.to_thread(self.asked_on_the_page, f"ann:{mine}")
        self.assertIn(f"{self.folder.due('sum', 0, 59)['sum']:,}", said)

    def asked_on_the_page(self, login):
        """What the page says to the first question that it offers. The first address stands for what is typed when the browser asks."""
        browser = Browser(any_certificate=True)
        try:
            browser.driver.get(f"https://{login}@127.0.0.1:{self.port}/schema.json")
            browser.open(f"https://127.0.0.1:{self.port}")
            return browser.ask()
        finally:
            browser.close()

    async def test_no_request_goes_unencrypted(self):
        await self.begin(secret=True)
        async with aiohttp.ClientSession(headers={"Host": NAME}) as session:
            async with session.get(f"http://127.0.0.1:{self.nginx.plain}{self.base}/health?x=1", allow_redirects=False) as response:
                self.assertEqual((response.status, response.headers["Location"]), (301, f"https://{NAME}{self.base}/health?x=1"))
            async with session.get(f"https://127.0.0.1:{self.port}{self.base}/health", ssl=False, auth=aiohttp.BasicAuth("ann", "secret")) as response:
                self.assertEqual(response.status, 200)
                self.assertEqual(response.headers["Strict-Transport-Security"], "max-age=31536000")


class OneDoorOfTwo(OneDoor):
    """The same with the block before two doors, of which one is there."""

    block, base = "nginx-parts.conf", "/north"

    async def asyncSetUp(self):
        self.parent = pathlib.Path(tempfile.mkdtemp(prefix="parts-"))
        self.folder = Folder(60, path=self.parent / "north")
        self.parent.chmod(0o755)
        self.port, self.path = free_port(), f"{self.folder.path}/door.sock"
        self.door, self.nginx = Door(self.folder, "--table", "north", "--folder", f"{self.parent}/{{table}}", "--host", NAME, plain=True), None

    async def asyncTearDown(self):
        await super().asyncTearDown()
        shutil.rmtree(self.parent, ignore_errors=True)

    def places(self):
        return {"10.0.0.11:8087": f"unix:{self.path}"}

    # Over tables by their names the clients ask both doors, as TwoDoors does.
    test_tokens_work_behind_tls = test_the_page_works_with_a_token_behind_tls = None


if __name__ == "__main__":
    unittest.main()
