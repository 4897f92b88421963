"""The commands that README shows, typed as they stand there, over the demo's table."""
import json
import pathlib
import re
import shutil
import subprocess
import tempfile
import unittest

from kit import AUDITOR, FRONT

TOP = FRONT.parent
README = TOP / "README.md"


def commands(text):
    """The lines after a dollar, and what README shows after each, without its remarks."""
    return [(command.strip(), [re.sub(r" +# .*", "", line).strip() for line in shown.splitlines()])
            for command, shown in re.findall(r"(?m)^ {4}\$ (.*)\n((?: {4}[^$\n].*\n)*)", text)]


class Readme(unittest.TestCase):
    def setUp(self):
        self.folder = pathlib.Path(tempfile.mkdtemp(prefix="readme-"))
        self.clone = self.folder / "clone"
        self.clone.mkdir()
        for name in ("front", "demo"):
            (self.clone / name).symlink_to(TOP / name)
        built = self.clone / "crates/auditor/out"
        built.mkdir(parents=True)
        (built / "auditor").symlink_to(AUDITOR)

    def tearDown(self):
        shutil.rmtree(self.folder)

    def typed(self, lines):
        done = subprocess.run(["bash", "-c", "\n".join(lines)], cwd=self.clone, capture_output=True, text=True, env={"PATH": "/usr/bin:/bin"})
        return done.stdout, done.stderr

    def test_from_a_file_to_the_first_answers(self):
        text = README.read_text()
        own = commands(text.partition("## Use it on your table")[2].partition("\n## ")[0])
        said, complaints = self.typed(["set -e", *(command for command, _ in own)])
        self.assertRegex(complaints, r"\A(plan: .*\n)*\Z")
        self.assertIn("\nDesign: 1\n", said)
        self.assertIn("\n176500\nnot answered: ", said)
        self.assertRegex(said, r"\n0 wrong, \d+ to look at, \d+ as they should be\n")
        planned = [json.loads(line) for line in (self.folder / "office/first.jsonl").read_text().splitlines()]
        self.assertEqual([(line["ask"], line["where"]) for line in planned], [("sum", "age >= 41")])
        self.assertEqual(sorted(path.name for path in self.clone.iterdir()), ["crates", "demo", "front"])

    def test_the_first_screen_is_what_try_says(self):
        shown = re.findall(r"(?m)^ {4}(\{.*\})$", README.read_text())
        asked = [{**json.loads(line), "user": ""} for line in (TOP / "demo/questions.jsonl").read_text().splitlines() if line]
        due = (TOP / "demo/replies.jsonl").read_text().splitlines()
        for question, reply in zip(shown[::2], shown[1::2], strict=True):
            self.assertEqual(due[asked.index({**json.loads(question), "user": ""})], reply)


if __name__ == "__main__":
    unittest.main()
