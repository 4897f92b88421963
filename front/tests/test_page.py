"""The page in a real browser, over the real door and program, and over a door that says what it is told to say.

Start: AUDITOR=/path/of/the/program /usr/bin/python3 -m unittest -v test_page. SHOTS names a folder for pictures.
"""
import base64
import csv
import io
import json
import os
import unittest
import urllib.parse

import staff
from browser import Browser

SHOTS = os.environ.get("SHOTS")
CONTRAST = """
function light(text) {
  const part = text.match(/[\\d.]+/g).slice(0, 3).map(Number).map(v => v / 255).map(v => v <= 0.04045 ? v / 12.92 : ((v + 0.055) / 1.055) ** 2.4);
  return 0.2126 * part[0] + 0.7152 * part[1] + 0.0722 * part[2];
}
function behind(node) {
  for (; node; node = node.parentElement) {
    const colour = getComputedStyle(node).backgroundColor;
    if (!/, 0\\)$/.test(colour) && colour !== "transparent") return colour;
  }
  return "rgb(255, 255, 255)";
}
const poor = [], walk = document.createTreeWalker(document.body, NodeFilter.SHOW_TEXT);
while (walk.nextNode()) {
  const node = walk.currentNode.parentElement, box = node.getBoundingClientRect();
  if (!walk.currentNode.data.trim() || !box.width || ["SCRIPT", "STYLE", "NOSCRIPT"].includes(node.tagName)) continue;
  const one = light(getComputedStyle(node).color), other = light(behind(node));
  const ratio = (Math.max(one, other) + 0.05) / (Math.min(one, other) + 0.05);
  if (ratio < 4.5) poor.push(ratio.toFixed(2) + " " + walk.currentNode.data.trim().slice(0, 40));
}
return poor;
"""
CONTROLS = {"button", "link", "textbox", "combobox", "listbox", "checkbox", "radio", "spinbutton", "DisclosureTriangle"}


class PageCase(unittest.TestCase):
    """A page in the browser; at the end of each test nothing stands on its console."""

    @classmethod
    def setUpClass(cls):
        cls.browser = Browser()
        cls.addClassCleanup(cls.browser.close)

    def tearDown(self):
        # A page that is left asks no door that is closed by then.
        self.browser.driver.get("about:blank")
        self.browser.screen(1200)
        self.assertEqual(self.browser.faults(), [])

    def picture(self, name):
        if SHOTS:
            self.browser.driver.save_screenshot(f"{SHOTS}/{name}.png")

    def answers(self, expected):
        self.assertEqual(self.browser.find("#answer .number").text, expected)

    def bars(self):
        """Label, text, and whether it is a bar, hatched or nothing, of each line of the chart."""
        return self.browser.run("""return [...document.querySelectorAll('.bars tr')].map(line => [line.children[0].textContent,
            line.children[2].textContent, line.querySelector('.bar') ? 'bar' : line.querySelector('.hatched') ? 'hatched' : 'nothing'])""")

    def draw(self, number, by, groups):
        self.browser.choose("#chart-kind", number)
        self.browser.choose("#by", by)
        self.browser.click("#draw")
        self.browser.wait(lambda: self.browser.text("draw") == "Draw" and len(self.browser.all(".bars tr")) == groups)


class OverTheProgram(PageCase):
    """What a person does with the page, over the door and the built program."""

    @classmethod
    def setUpClass(cls):
        super().setUpClass()
        cls.rows = staff.people()
        cls.office = staff.Office({"": (staff.COLUMNS, cls.rows, staff.PUBLIC, staff.NOTES)}, "--report-every", "0.5")
        cls.addClassCleanup(cls.office.close)
        cls.office.ready(lambda: cls.office.get("health"))

    def setUp(self):
        self.browser.open(self.office.url)

    def records(self):
        """How many answers were given."""
        return json.loads(self.office.get("health"))["records"]

    def single(self):
        """Somebody of the smallest team who alone in it has an age, and isn't of those below 20."""
        ages = [row.age for row in self.rows if row.team.startswith("<b>")]
        return next(row for row in self.rows if row.team.startswith("<b>") and ages.count(row.age) == 1 and row.age >= 20)

    def alone(self):
        """A condition that one person satisfies."""
        return f"team = '{self.single().team}' and age = {self.single().age}"

    def test_a_total_is_built_from_lists(self):
        self.browser.click("#add")
        self.browser.choose("li select[aria-label=value]", "Bob's workshop")
        self.browser.click("#add")
        line = self.browser.all("#parts li")[1]
        self.browser.choose("select", "age", line)
        self.browser.choose("select[aria-label=comparison]", ">=", line)
        line.find_element("css selector", "input").send_keys("30")
        self.assertEqual(self.browser.find("#where").get_property("value"), "team = 'Bob''s workshop' and age >= 30")
        fitting = [row.salary for row in self.rows if row.team == "Bob's workshop" and row.age >= 30]
        self.browser.wait(lambda: self.browser.text("holds") == f"holds for {len(fitting)} of 200 rows")
        self.browser.ask()
        self.answers(f"{sum(fitting) / 100:,.2f} EUR")
        self.assertIn("where team = 'Bob''s workshop' and age >= 30", self.browser.text("answer"))
        self.picture("answer")

    def test_several_values_and_either_condition(self):
        self.browser.click("#kinds label:nth-child(1)")
        self.browser.click("#add")
        self.browser.choose("li select[aria-label=comparison]", "in")
        for check in self.browser.all(".choices input"):
            if check.get_attribute("value") in ("Zoë", "NA"):
                check.click()
        self.browser.click("#add")
        line = self.browser.all("#parts li")[1]
        self.browser.choose("select", "age", line)
        self.browser.choose("select[aria-label=comparison]", "between", line)
        for field, text in zip(line.find_elements("css selector", "input"), ("60", "65")):
            field.send_keys(text)
        self.browser.choose("#join", " or ")
        due = sum(row.team in ("Zoë", "NA") or 60 <= row.age <= 65 for row in self.rows)
        self.browser.wait(lambda: f"holds for {due} of 200" in self.browser.text("holds"))
        self.browser.ask()
        self.answers(str(due))

    def test_what_is_typed_in_units_is_asked_in_steps(self):
        self.browser.click("#add")
        self.browser.choose("#parts select", "height")
        self.browser.choose("li select[aria-label=comparison]", ">=")
        field = self.browser.find("#parts input")
        field.send_keys("1.8")
        self.assertEqual(self.browser.find("#where").get_property("value"), "height >= 180")
        due = sum(row.height >= 180 for row in self.rows)
        self.browser.wait(lambda: f"holds for {due} of 200" in self.browser.text("holds"))
        field.clear()
        field.send_keys("1.805")
        self.browser.wait(lambda: "not understood from here on" in self.browser.text("holds"))

    def test_a_condition_typed_by_hand_stays_when_one_is_added(self):
        self.browser.write("age < 25 or age > 60")
        self.browser.click("#add")
        self.browser.choose("li select[aria-label=value]", "NA")
        self.assertEqual(self.browser.find("#where").get_property("value"), "(age < 25 or age > 60) and team = 'NA'")
        due = sum((row.age < 25 or row.age > 60) and row.team == "NA" for row in self.rows)
        self.browser.wait(lambda: f"holds for {due} of 200" in self.browser.text("holds"))

    def test_a_denial_is_said_in_plain_words_and_is_no_number(self):
        self.browser.write(self.alone())
        self.browser.ask()
        self.assertEqual(self.browser.find("#answer .verdict").text, "Not answered")
        self.assertIn("could give a person's value or a protected total away", self.browser.text("answer"))
        self.assertIn("decided without looking at the values", self.browser.text("answer"))
        self.assertEqual(self.browser.all("#answer .number"), [])
        self.assertEqual(self.browser.find("#history td:nth-child(2)").text, "not answered")
        self.picture("denied")

    def test_why_shows_a_certificate_in_words(self):
        before, row = self.records(), self.rows.index(self.single())
        self.browser.write(self.alone())
        self.browser.ask()
        self.browser.run("document.querySelector('#answer button').focus()")
        self.browser.keys("Enter")
        self.browser.wait(lambda: self.browser.all("#answer details"))
        said = self.browser.text("answer")
        one = self.single()
        self.assertIn(f"This total would be the monthly <b>salary</b> of one person: {one.team}, {one.site}, {one.age}, {one.height / 100:.2f} m.", said)
        self.assertIn("it tells nothing more", said)
        self.assertEqual([button.text for button in self.browser.all("#answer button")], ["What is near?"])
        self.browser.click("#answer summary")
        self.assertEqual(json.loads(self.browser.find("#answer code").text), {"verdict": "unsafe", "row": row, "times": 1, "by": [], "asked": 1})
        self.browser.screen(360)
        self.assertEqual(self.browser.too_wide(360), [])
        self.browser.screen(1200)
        self.picture("why")
        self.assertEqual(self.records(), before)

    def test_whether_it_would_be_answered_asks_nothing(self):
        before = self.records()
        self.browser.write("age >= 31")
        self.assertIn("It would be answered now", self.browser.ask("would"))
        self.browser.write(self.alone())
        self.assertIn("It would not be answered", self.browser.ask("would"))
        self.browser.write("age > 99")
        self.assertIn("No row satisfies", self.browser.ask("would"))
        self.browser.write("age > ninety")
        self.assertIn("isn't understood", self.browser.ask("would"))
        self.assertEqual(self.records(), before)
        self.assertEqual(self.browser.text("history"), "Nothing yet.")

    def test_a_mistake_is_marked_at_its_byte(self):
        self.browser.write("team = 'Zoë' and age >= forty")
        self.browser.wait(lambda: self.browser.all("#holds mark"))
        self.assertEqual(self.browser.find("#holds mark").text, "forty")
        self.assertEqual(self.browser.find("#where").get_attribute("aria-invalid"), "true")
        self.browser.click("#holds button")
        area = "document.getElementById('where')"
        self.assertEqual(self.browser.run(f"return {area}.value.slice({area}.selectionStart, {area}.selectionEnd)"), "forty")
        self.browser.write("team = 'Zoë' and ")
        self.browser.wait(lambda: "something is missing at the end" in self.browser.text("holds"))

    def test_groups_are_bars_and_a_denied_one_is_hatched(self):
        self.browser.write("age >= 20")
        self.draw("avg salary", "team", 6)
        drawn = {label: (text, kind) for label, text, kind in self.bars()}
        for team in staff.TEAMS:
            pay = [row.salary for row in self.rows if row.team == team and row.age >= 20]
            shown = drawn[team][0].removeprefix("≈ ").removesuffix(" EUR").replace(",", "")
            self.assertAlmostEqual(float(shown), sum(pay) / len(pay) / 100, places=3)
            self.assertEqual(drawn[team][1], "bar")
        # The smallest team's total without one person, less than the one just answered by that person's salary.
        self.browser.write(f"age >= 20 and age != {self.single().age}")
        self.draw("sum salary", "team", 6)
        denied = [label for label, text, kind in self.bars() if kind == "hatched"]
        self.assertEqual([text for _, text, kind in self.bars() if kind == "hatched"], ["not answered"] * len(denied))
        self.assertIn("<b>Legal</b> & Co", denied)
        self.assertIn(f"Not answered (hatched): {len(denied)} of 6 groups", self.browser.text("chart-hint"))
        self.picture("groups")

    def test_what_is_near_is_shown_and_not_asked(self):
        self.browser.write(self.alone())
        self.browser.ask()
        before = self.records()
        self.browser.run("[...document.querySelectorAll('#answer button')].find(one => one.textContent === 'What is near?').focus()")
        self.browser.keys("Enter")
        self.browser.wait(lambda: self.browser.all("#answer code"))
        where = self.browser.find("#answer code").text
        self.assertRegex(self.browser.text("answer"), r"Near, and it would be answered: .* for \d+ rows, 1 more\. Take it\nNothing was asked")
        self.assertEqual(self.records(), before)
        self.browser.screen(360)
        self.assertEqual(self.browser.too_wide(360), [])
        self.browser.screen(1200)
        self.picture("near")
        self.browser.run("[...document.querySelectorAll('#answer button')].find(one => one.textContent === 'Take it').focus()")
        self.browser.keys("Enter")
        self.assertEqual(self.browser.find("#where").get_property("value"), where)
        self.assertEqual(self.browser.run("return document.activeElement.id"), "ask")
        self.browser.ask()
        self.assertTrue(self.browser.all("#answer .number"))

    def cross(self):
        """The text and the look of each cell of the table, by its row's and its column's label."""
        return self.browser.run("""const heads = [...document.querySelectorAll('.cross thead th')].slice(1).map(one => one.textContent);
            return Object.fromEntries([...document.querySelectorAll('.cross tbody tr')].flatMap(line => heads.map((head, place) =>
            [line.children[0].textContent + " / " + head, [line.children[place + 1].textContent, line.children[place + 1].className]])))""")

    def test_a_table_by_two_columns_has_all_totals_and_hatched_cells(self):
        self.browser.write("age >= 40")
        self.browser.choose("#by", "team")
        self.browser.choose("#by-too", "site")
        self.assertIn("Draw asks at most 28 questions, one for each cell and total, each within: age >= 40", self.browser.text("chart-hint"))
        self.browser.choose("#chart-kind", "sum balance")
        self.browser.click("#draw")
        self.browser.wait(lambda: self.browser.text("draw") == "Draw" and self.browser.all("#chart-file a"))
        cells, old = self.cross(), [row for row in self.rows if row.age >= 40]
        self.assertEqual(cells["all / all"], [f"{sum(row.balance for row in old):,}", "value all"])
        for label, (text, look) in cells.items():
            team, site = label.split(" / ")
            inside = [row.balance for row in old if team in ("all", row.team) and site in ("all", row.site)]
            if look == "no":
                self.assertEqual(text, "not answered")
            elif inside:
                self.assertEqual(text, f"{sum(inside):,}")
            else:
                self.assertEqual((text, look), ("", ""))
        self.assertTrue(any(look == "no" for _, look in cells.values()))
        self.assertIn("cells and totals", self.browser.text("chart-hint"))
        saved = list(csv.reader(io.StringIO(urllib.parse.unquote(self.browser.find("#chart-file a").get_attribute("href").partition(",")[2]))))
        self.assertEqual(saved[0], ["team", "site", "rows", "sum", "not answered"])
        self.assertIn(["", "", str(len(old)), str(sum(row.balance for row in old)), ""], saved)
        for team, site, rows, total, reason in saved[1:]:
            inside = [row.balance for row in old if team in ("", row.team) and site in ("", row.site)]
            self.assertEqual((int(rows), total or "unsafe", reason or "0"), (len(inside), "unsafe" if reason else str(sum(inside)), "unsafe" if reason else "0"))
        self.browser.screen(360)
        self.assertEqual(self.browser.too_wide(360), [])
        self.browser.screen(1200)
        self.picture("table")

    def test_negative_totals_have_their_sign_and_go_to_the_left(self):
        self.draw("sum balance", "site", 3)
        for label, text, kind in self.bars():
            due = sum(row.balance for row in self.rows if row.site == label)
            self.assertLess(due, 0)
            self.assertEqual((text, kind), (f"{due:,}", "bar"))
        longest = min(self.bars(), key=lambda bar: int(bar[1].replace(",", "")))[0]
        widths = self.browser.run("""return Object.fromEntries([...document.querySelectorAll('.bars tr')].map(line =>
            [line.children[0].textContent, [line.querySelector('.bar').style.left, line.querySelector('.bar').style.width]]))""")
        self.assertEqual(widths[longest], ["0%", "100%"])

    def test_numbers_are_grouped_in_ranges_that_leave_nobody_out(self):
        self.browser.choose("#by", "age")
        self.browser.choose("#chart-kind", "count")
        self.browser.click("#draw")
        self.browser.wait(lambda: "groups were asked" in self.browser.text("chart-hint"))
        self.assertEqual(sum(int(text) for _, text, _ in self.bars()), 200)

    def test_groups_are_within_the_whole_condition(self):
        self.browser.write("age < 25 or age > 60")
        self.draw("count", "site", 3)
        due = {site: sum((row.age < 25 or row.age > 60) and row.site == site for row in self.rows) for site in ("Leeds", "York", "Hull")}
        self.assertEqual({label: int(text) for label, text, _ in self.bars()}, due)

    def test_a_row_of_the_report_is_free_by_a_click(self):
        self.browser.ask()
        self.browser.wait(self.reported)
        self.browser.click("#report")
        self.browser.wait(lambda: len(self.browser.all("#free details")) == 3)
        summaries = [one.text for one in self.browser.all("#free summary")]
        self.assertEqual(summaries[1:], ["balance: 200 of 200 numbers are free", "bonus: 200 of 200 numbers are free"])
        for summary in self.browser.all("#free summary"):
            summary.click()
        self.browser.wait(lambda: len(self.browser.all(".square")) == 600)
        squares = self.browser.all(".square")
        squares[17].click()
        said = self.browser.find("#free details:nth-child(1) [role=status]").text
        lines = [json.loads(line) for line in self.office.get("report.jsonl").splitlines()]
        due = next(line["direction"] for line in lines if line.get("column") == "salary" and line.get("row") == 17)
        for row, by in due[:12]:
            self.assertIn(f"row {row} {by:+,}", said)
        self.assertIn("every total and average that was answered stays as it is", said)
        self.assertRegex(self.browser.text("free-summary"), r"after \d+ answers?, \d+ \w+ 20\d\d, \d\d:\d\d\.")
        squares[417].click()
        high = next(line["high"][17] for line in lines if line.get("column") == "bonus" and "high" in line)
        said = self.browser.find("#free details:nth-child(3) [role=status]").text
        self.assertIn(f"{(high - 1) / 100:,.2f} EUR in place of {high / 100:,.2f} EUR", said)
        self.picture("free")

    def reported(self):
        """Whether there is a report over all answers that were given."""
        try:
            last, records = self.office.get("report.jsonl").splitlines()[-1], self.records()
        except OSError:
            return False
        return json.loads(last)["audited"] == records

    def test_what_people_wrote_is_never_markup(self):
        self.assertEqual(self.browser.text("title"), "Staff of <i>the</i> office")
        self.assertIn("<b>Legal</b> & Co", self.browser.text("columns"))
        self.browser.write("team = '<img src=x>' or team = '<b>Legal</b> & Co'")
        self.browser.wait(lambda: "holds for 9 of 200" in self.browser.text("holds"))
        self.browser.ask()
        self.draw("sum balance", "team", 6)
        self.browser.write("team = <img src=x>")
        self.browser.wait(lambda: self.browser.all("#holds mark"))
        self.assertEqual(self.browser.find("#holds mark").text, "<img src=x>")
        self.browser.click("#add")
        self.assertEqual(self.browser.all("main b, main i, main img, header i"), [])

    def test_what_was_asked_is_kept_in_the_browser(self):
        self.browser.click("#kinds label:nth-child(3)")
        self.browser.choose("#column", "balance")
        self.browser.write("age >= 33")
        said = self.browser.ask()
        self.browser.driver.refresh()
        self.browser.wait(lambda: "Average of balance where age >= 33" in self.browser.text("history"))
        self.assertIn(self.browser.find("#history td:nth-child(2)").text, said)
        self.browser.click("#history button")
        self.assertEqual(self.browser.find("#where").get_property("value"), "age >= 33")
        self.assertEqual(self.browser.find("#kinds input:checked").get_attribute("value"), "avg")
        self.assertEqual(self.browser.find("#column").get_property("value"), "balance")
        self.browser.click("#forget")
        self.browser.driver.switch_to.alert.dismiss()
        self.assertIn("age >= 33", self.browser.text("history"))
        self.browser.click("#forget")
        self.browser.driver.switch_to.alert.accept()
        self.browser.driver.refresh()
        self.browser.wait(lambda: "rows" in self.browser.text("holds"))
        self.assertEqual(self.browser.text("history"), "Nothing yet.")

    def test_by_keyboard_alone(self):
        keys = self.browser.keys
        self.browser.tab_to("#kinds input")
        keys("ArrowLeft", "ArrowRight")
        self.assertEqual(self.browser.run("return document.activeElement.value"), "sum")
        self.browser.tab_to("#add")
        keys("Enter", "s")
        self.assertEqual(self.browser.run("return document.activeElement.value"), "site")
        self.browser.tab_to("#parts select[aria-label=value]")
        keys("Y")
        self.browser.tab_to("#ask")
        keys(" ")
        due = sum(row.salary for row in self.rows if row.site == "York")
        self.browser.wait(lambda: f"{due / 100:,.2f} EUR" in self.browser.text("answer"))
        self.browser.tab_to("#draw")
        keys("Enter")
        self.browser.wait(lambda: self.browser.all(".bars .bar"))
        self.browser.wait(self.reported)
        self.browser.tab_to("#report")
        keys("Enter")
        self.browser.wait(lambda: self.browser.all("#free summary"))
        self.browser.tab_to("#free summary")
        keys("Enter")
        self.browser.wait(lambda: self.browser.all(".square"))
        self.browser.tab_to(".square")
        keys("ArrowRight", "ArrowDown", "ArrowLeft", "Enter")
        self.assertIn("Row 10: ", self.browser.find("#free [role=status]").text)

    def test_each_control_has_a_name(self):
        self.browser.click("#add")
        self.browser.choose("li select[aria-label=comparison]", "in")
        self.browser.click("#add")
        self.browser.choose("#parts li:nth-child(2) select", "age")
        self.browser.ask()
        self.browser.wait(self.reported)
        self.browser.click("#report")
        self.browser.wait(lambda: self.browser.all("#free summary"))
        self.browser.click("#free summary")
        self.browser.wait(lambda: self.browser.all(".square"))
        nodes = self.browser.driver.execute_cdp_cmd("Accessibility.getFullAXTree", {})["nodes"]
        controls = [(node["role"]["value"], node.get("name", {}).get("value", "").strip()) for node in nodes
                    if not node["ignored"] and node["role"]["value"] in CONTROLS]
        self.assertGreater(len(controls), 220)
        self.assertEqual([control for control in controls if len(control[1]) < 2], [])
        self.assertLessEqual({("button", "Ask"), ("button", "Would it be answered?"), ("radio", "Total"), ("checkbox", "Zoë (12)"),
                              ("textbox", "The condition as it is asked. You may edit it.")}, set(controls))
        regions = {node["name"]["value"] for node in nodes if node["role"]["value"] == "region"}
        self.assertLessEqual({"What do you want to know?", "Compare groups", "What you asked", "Check it yourself"}, regions)

    def test_nothing_is_cut_at_360_pixels_and_all_text_can_be_read(self):
        for width, dark in ((360, False), (360, True), (1200, False), (1200, True)):
            with self.subTest(width=width, dark=dark):
                self.browser.screen(width, 900, dark)
                self.browser.open(self.office.url)
                self.browser.click("#add")
                self.browser.choose("li select[aria-label=comparison]", "in")
                self.browser.click(".choices input")
                self.browser.ask()
                self.draw("sum salary", "team", 6)
                self.browser.write("age >= forty")
                self.browser.wait(lambda: self.browser.all("#holds mark"))
                self.assertEqual(self.browser.too_wide(width), [])
                self.assertEqual(self.browser.run(CONTRAST), [])
                self.picture(f"{width}{'dark' if dark else 'light'}")

    def test_print_has_the_answer_and_no_controls(self):
        self.browser.ask()
        self.draw("sum balance", "team", 6)
        self.browser.driver.execute_cdp_cmd("Emulation.setEmulatedMedia", {"media": "print"})
        shown = "return [...document.querySelectorAll(arguments[0])].filter(node => node.offsetParent !== null).length"
        try:
            self.assertEqual(self.browser.run(shown, "button, textarea, select, #kinds"), 0)
            self.assertEqual(self.browser.run(shown, "#answer .number, .bars .bar, .bars .hatched"), 1 + 6)
            self.assertGreater(self.browser.run(shown, "#history tr"), 6)
        finally:
            self.browser.driver.execute_cdp_cmd("Emulation.setEmulatedMedia", {"media": ""})
        pdf = base64.b64decode(self.browser.driver.execute_cdp_cmd("Page.printToPDF", {"printBackground": False})["data"])
        self.assertTrue(pdf.startswith(b"%PDF") and len(pdf) > 10_000)

    def test_nothing_is_loaded_from_elsewhere_and_no_other_script_runs(self):
        self.browser.ask()
        loaded = self.browser.run("return performance.getEntriesByType('resource').map(entry => entry.name)")
        self.assertTrue(loaded)
        self.assertEqual([name for name in loaded if not name.startswith((self.office.url + "/", "data:"))], [])
        self.browser.run("const script = document.createElement('script'); script.textContent = 'window.ran = true'; document.body.append(script)")
        self.assertIsNone(self.browser.run("return window.ran"))
        self.browser.driver.get_log("browser")                  # the policy's own complaint


class SeveralTables(PageCase):
    """Two tables of one office, by site, behind one door, and the page at the address of one of them."""

    @classmethod
    def setUpClass(cls):
        super().setUpClass()
        cls.rows = staff.people()
        cls.parts = {"north": [row for row in cls.rows if row.site != "York"], "york": [row for row in cls.rows if row.site == "York"]}
        cls.office = staff.Office({name: (staff.COLUMNS, part, staff.PUBLIC, staff.NOTES) for name, part in cls.parts.items()})
        cls.addClassCleanup(cls.office.close)
        cls.office.ready(lambda: cls.office.get("health"))

    def test_a_total_is_that_of_all_parts(self):
        self.browser.open(self.office.url)
        said = self.browser.ask()
        self.answers(f"{sum(row.salary for row in self.rows) / 100:,.2f} EUR")
        self.assertIn(f"york: {sum(row.salary for row in self.parts['york']) / 100:,.2f} EUR", said)

    def test_the_part_that_wouldnt_answer_is_named_and_none_is_asked(self):
        single = next(age for age in range(19, 66) if [row.age for row in self.parts["york"]].count(age) == 1)
        self.browser.open(self.office.url)
        before = [self.office.get(name + "/transcript.jsonl") for name in self.parts]
        self.browser.write(f"age = {single} or site != 'York'")
        self.assertIn("york: not answered", self.browser.ask())
        self.assertEqual(self.browser.find("#answer .verdict").text, "Not answered")
        self.browser.click("#answer button")
        self.browser.wait(lambda: self.browser.all("#answer details"))
        row = [row.age for row in self.parts["york"]].index(single)
        one = self.parts["york"][row]
        self.assertIn(f"york: This total would be the monthly <b>salary</b> of one person: {one.team}, York, {single}, ", self.browser.text("answer"))
        self.assertEqual([self.office.get(name + "/transcript.jsonl") for name in self.parts], before)

    def test_the_address_of_one_table_has_its_page(self):
        self.browser.open(self.office.url + "/york")
        self.assertIn(f"of {len(self.parts['york'])} rows", self.browser.text("holds"))
        self.browser.click("#kinds label:nth-child(4)")
        self.browser.ask()
        self.answers(f"{max(row.bonus for row in self.parts['york']) / 100:,.2f} EUR")


if __name__ == "__main__":
    unittest.main()
