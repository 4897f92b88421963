"""The door's interface for programs: /openapi.json against what the door says, the page of errors, and /metrics.

Start: AUDITOR=/path/of/the/program /usr/bin/python3 -m unittest -v test_interface.
"""
import json
import pathlib
import re
import sys
import types
import unittest

import jsonschema

from case import DoorCase
from kit import FRONT, ask, health, line_of

sys.path.insert(0, str(FRONT))
from doorway.faults import STATUS, WORDS         # noqa: E402, they are found by the line above
from doorway.handlers import RootHandlers, TableHandlers    # noqa: E402
from doorway.interface import interface          # noqa: E402

PATH = FRONT / "openapi.json"


def validator(document, schema):
    return jsonschema.Draft202012Validator(schema, resolver=jsonschema.RefResolver.from_schema(document))


class Described(DoorCase):
    """What the door says to requests of each kind fits its own description."""

    words, rows = ("--least", "3"), 40

    async def described(self, session, method, path, due, body=None, **headers):
        """A request whose reply has this status, and fits what the description has for it. The code, if it has one."""
        async with session.request(method, path, data=body, headers={"Content-Type": "application/json", **headers}) as response:
            text = await response.text()
            self.assertEqual(response.status, due, text)
            said = self.document["paths"][path.partition("?")[0]][method.lower()]["responses"][str(due)]["content"]
            kind = response.headers["Content-Type"].partition(";")[0]
            self.assertIn(kind, said)
        if kind == "application/json":
            validator(self.document, said[kind]["schema"]).validate(json.loads(text))
            return json.loads(text).get("code") if due >= 400 and path != "/health" else json.loads(text)
        return text

    async def test_each_reply_fits_the_description(self):
        self.door.start()
        async with self.door.session() as session:
            await self.door.ready(session)
            async with session.get("/openapi.json") as response:
                self.document = await response.json()
            self.assertEqual(self.document["openapi"], "3.1.0")
            for line in (line_of("sum", 0, 30), line_of("sum", 1, 30), line_of("max", 0, 20), line_of("count", 0, 9), b"x", b'{"ask":"sum","column":"k","where":"k > 5"}',
                         b'{"ask":"avg","column":"salary","where":"all"}',
                         b'{"ask":"count","where":"k == 1"}'):
                for path in ("/ask", "/would", "/why"):
                    if line != b"x":
                        await self.described(session, "POST", path, 200, line)
            self.assertEqual(await self.described(session, "POST", "/would", 200, line_of("sum", 0, 30)), {"verdict": "released", "new": False})
            for line in (line_of("sum", 1, 30), line_of("sum", 0, 30), b'{"ask":"sum","column":"salary","where":"k == 1"}'):
                await self.described(session, "POST", "/near", 200, line)
                await self.described(session, "POST", "/hint", 200, line)
            for path, operations in self.document["paths"].items():
                if "get" in operations and path not in ("/notes.json", "/report.jsonl", "/period.{period}/{file}"):
                    await self.described(session, "GET", path, 200)
            codes = {
                await self.described(session, "POST", "/ask", 400, b"a\nb"),
                await self.described(session, "POST", "/ask", 403, b"{}", **{"Sec-Fetch-Site": "cross-site"}),
                await self.described(session, "GET", "/notes.json", 404), await self.described(session, "POST", "/ask", 413, b"x" * 8193),
                await self.described(session, "POST", "/ask", 415, b"{}", **{"Content-Type": "text/plain"}),
                await self.described(session, "POST", "/ask", 422, line_of("sum", 0, 1)), await self.described(session, "POST", "/ask", 422, b"x"),
                await self.described(session, "POST", "/near", 422, b"x")}
            self.assertEqual(codes, {"lines", "site", "missing", "long", "type", "few", "question"})
            for method, path, due in (("GET", "/ask", (405, "method")), ("GET", "/nowhere", (404, "address"))):
                async with session.request(method, path) as response:
                    self.assertEqual((response.status, (await response.json())["code"]), due)


class Whole(unittest.TestCase):
    """The description and the page have all that the door has, and nothing else."""

    def test_each_address_is_described_and_each_description_has_an_address(self):
        table = types.SimpleNamespace(places=types.SimpleNamespace(public=pathlib.Path("/nowhere")), reports=types.SimpleNamespace(path=None))
        for names in ([], ["north", "south"]):
            tables = {name: TableHandlers(table, None) for name in names or [""]}
            routes = RootHandlers(None, FRONT, tables, {}).routes()
            for name, handlers in tables.items():
                routes |= handlers.routes(f"/{name}" if name else "")
            # The name of a table alone leads to its page.
            described = {(method.upper(), path) for path, operations in interface(PATH, names)["paths"].items() for method in operations}
            self.assertEqual(routes.keys() - {("GET", f"/{name}") for name in names}, described)

    def test_the_description_is_whole(self):
        document = interface(PATH, ["north"])
        text = json.dumps(document)
        for ref in set(re.findall(r'"#/([^"]+)"', text)):
            found = document
            for key in ref.split("/"):
                found = found[key]
        for schema in document["components"]["schemas"].values():
            jsonschema.Draft202012Validator.check_schema(schema)
        names = [operation["operationId"] for operations in document["paths"].values() for operation in operations.values()]
        self.assertEqual(len(names), len(set(names)))
        said = set(re.findall(r'"enum": \[([^\]]*)\]', text.replace('"components"', "")))
        codes = {code.strip('" ') for part in said for code in part.split(",")}
        self.assertLessEqual(set(STATUS) - {"address"}, codes)

    def test_each_code_is_on_the_page_has_a_sentence_and_is_said_somewhere(self):
        lines = re.findall(r"(?m)^\| `(\w+)` \| (\d+) \|", (FRONT.parent / "docs" / "ERRORS.md").read_text())
        self.assertEqual({code: int(status) for code, status in lines}, STATUS)
        self.assertEqual(set(WORDS["error"]) | {"away"}, set(STATUS))
        source = "".join(path.read_text() for path in (FRONT / "doorway").glob("*.py"))
        self.assertEqual(set(re.findall(r'(?:Turned\(|EACH, )"(\w+)"', source)), set(STATUS))
        for name in ("nginx.conf", "nginx-parts.conf"):
            self.assertEqual(set(re.findall(r'"code":"(\w+)"', (FRONT / "units" / name).read_text())), {"often"})


class Metrics(DoorCase):
    """What the door counts, in Prometheus' text form."""

    rows = 20

    async def metrics(self, session):
        async with session.get("/metrics") as response:
            self.assertEqual(response.headers["Content-Type"], "text/plain; version=0.0.4; charset=utf-8")
            text = await response.text()
        found, kinds = {}, {}
        for line in text.splitlines():
            if line.startswith("# TYPE "):
                kinds[line.split()[2]] = line.split()[3]
            elif not line.startswith("# HELP "):
                match = re.fullmatch(r'([a-z_]+)(\{[a-z]+="[^"]*"(?:,[a-z]+="[^"]*")*\})? (\d+(?:\.\d+)?)', line)
                self.assertTrue(match, line)
                self.assertIn(re.sub("_(bucket|sum|count)$", "", match[1]) if "seconds" in match[1] else match[1], kinds)
                found[match[1] + (match[2] or "")] = float(match[3])
        return found

    async def test_replies_records_seconds_and_errors_are_counted(self):
        self.door.start()
        async with self.door.session() as session:
            await self.door.ready(session)
            for line in (line_of("sum", 0, 19), line_of("sum", 0, 19), line_of("sum", 0, 18), line_of("count", 0, 3), b"x", line_of("max", 0, 9)):
                self.assertEqual((await ask(session, line))[0], 200)
            self.assertEqual([(await ask(session, b"a\nb"))[0] for _ in range(2)], [400, 400])
            found, said = await self.metrics(session), await health(session)
            due = {"answered": 3, "denied": 1, "counted": 1, "refused": 1}
            self.assertEqual({kind: found[f'auditor_replies_total{{kind="{kind}"}}'] for kind in due}, due)
            self.assertEqual((found["auditor_records"], found["auditor_records_left"]), (said["records"], said["room"]))
            self.assertEqual((found["auditor_records"], found["auditor_known_total"], found["auditor_serving"]), (2, 1, 1))
            self.assertEqual(found['auditor_errors_total{code="lines"}'], 2)
            buckets = [found[key] for key in found if key.startswith("auditor_ask_seconds_bucket")]
            self.assertEqual((buckets[-1], buckets), (6, sorted(buckets)))
            self.assertEqual(found["auditor_ask_seconds_count"], 6)
            self.assertTrue(0 < found["auditor_ask_seconds_sum"] < 120)
            async with session.get("/metrics") as response:
                self.assertNotIn("salary", await response.text())


if __name__ == "__main__":
    unittest.main()
