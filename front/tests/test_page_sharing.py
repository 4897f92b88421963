"""What can be taken along from the page: addresses, files, copies, paper; and what it says where it is narrow or a condition is wrong.

Start: AUDITOR=/path/of/the/program /usr/bin/python3 -m unittest -v test_page_sharing.
"""
import base64
import csv
import datetime
import io
import json
import unittest
import urllib.parse

import staff
from test_page import PageCase

BORDERS = """
function light(text) {
  const part = text.match(/[\\d.]+/g).slice(0, 3).map(Number).map(v => v / 255).map(v => v <= 0.04045 ? v / 12.92 : ((v + 0.055) / 1.055) ** 2.4);
  return 0.2126 * part[0] + 0.7152 * part[1] + 0.0722 * part[2];
}
function behind(node) {
  for (node = node.parentElement; node; node = node.parentElement) {
    const colour = getComputedStyle(node).backgroundColor;
    if (!/, 0\\)$/.test(colour)) return colour;
  }
  return "rgb(255, 255, 255)";
}
const controls = [...document.querySelectorAll("button:not(.plain), select, input:not([type]), textarea, .kinds label, .choices")];
return controls.filter(one => one.offsetParent).map(one => {
  const edge = light(getComputedStyle(one).borderTopColor), other = light(behind(one));
  return [(Math.max(edge, other) + 0.05) / (Math.min(edge, other) + 0.05), one.outerHTML.slice(0, 60)];
}).filter(([ratio]) => ratio < 3);
"""
CUT = """return [...document.querySelectorAll("body *")].filter(one => one.offsetParent && !one.closest(".choices, textarea, .unseen, select, .track, #chart")
    && getComputedStyle(one).overflowY !== "visible" && one.scrollHeight > one.clientHeight + 1).map(one => one.outerHTML.slice(0, 60))"""
BROKEN = """return [...document.querySelectorAll(".bars th")].filter(one => {
    const range = document.createRange();
    range.selectNodeContents(one);
    return !one.textContent.includes(" ") && new Set([...range.getClientRects()].map(box => box.top)).size > 1;
}).map(one => one.textContent)"""

# Bars that have less than half of the chart's width, so that they can hardly be compared, and numbers that don't stand on one line.
SQUEEZED = """return [...document.querySelectorAll(".bars tr")].filter(one => {
    const range = document.createRange();
    range.selectNodeContents(one.lastElementChild);
    return 2 * one.querySelector(".track").clientWidth < document.getElementById("chart").clientWidth
        || new Set([...range.getClientRects()].map(box => box.top)).size > 1;
}).map(one => one.textContent)"""


class Sharing(PageCase):
    """Over the door and the built program."""

    @classmethod
    def setUpClass(cls):
        super().setUpClass()
        cls.rows = [row._replace(team="Engineering") if row.team == "NA" else row for row in staff.people()]
        cls.office = staff.Office({"": (staff.COLUMNS, cls.rows, staff.PUBLIC, staff.NOTES)}, "--report-every", "0.5")
        cls.addClassCleanup(cls.office.close)
        cls.office.ready(lambda: cls.office.get("health"))

    def setUp(self):
        self.browser.open(self.office.url)

    def transcript(self):
        return self.office.get("transcript.jsonl")

    def single_age(self):
        """An age that one person has, who is older than others."""
        ages = [row.age for row in self.rows]
        return next(age for age in range(40, 66) if ages.count(age) == 1 or len([row for row in self.rows if row.age == age and row.site == "York"]) == 1)

    def test_why_names_the_questions_that_were_answered_with_a_link_to_each(self):
        site = "site = 'York'"
        age = next(age for age in range(30, 66) if sum(row.age == age and row.site == "York" for row in self.rows) == 1)
        one = next(row for row in self.rows if row.age == age and row.site == "York")
        self.browser.write(site)
        self.browser.ask()
        self.browser.write(f"{site} and age != {age}")
        self.browser.ask()
        self.browser.click("#answer button")
        self.browser.wait(lambda: self.browser.all("#answer details"))
        said = self.browser.text("answer")
        self.assertIn(f"Total of monthly <b>salary</b> where {site}, answered, less this total would be the monthly <b>salary</b> of one person: "
                      f"{one.team}, York, {age}, {one.height / 100:.2f} m.", said)
        before = self.transcript()
        self.browser.click("#answer p a")
        self.browser.wait(lambda: self.browser.all("#answer .number"))
        self.answers(f"{sum(row.salary for row in self.rows if row.site == 'York') / 100:,.2f} EUR")
        self.assertIn("as it was answered before", self.browser.text("answer"))
        self.assertEqual(self.browser.find("#where").get_property("value"), site)
        self.assertEqual(self.transcript(), before)

    def go(self, **named):
        self.browser.driver.get("about:blank")
        self.browser.driver.get(self.office.url + "/#" + urllib.parse.urlencode(named))
        self.browser.wait(lambda: "rows" in self.browser.text("holds"))

    def test_an_address_has_a_question_or_an_answer_and_asks_nothing(self):
        due = f"{sum(row.balance for row in self.rows if row.age >= 33 and row.team == 'Zoë'):,}"
        where = "age >= 33 and team = 'Zoë'"
        before = self.transcript()
        self.go(question="sum", column="balance", where=where)
        self.assertEqual(self.browser.run("return [document.querySelector('#kinds input:checked').value, document.getElementById('column').value]"),
                         ["sum", "balance"])
        self.assertEqual((self.browser.find("#where").get_property("value"), self.browser.text("answer")), (where, ""))
        self.go(answer="sum", column="balance", where=where)
        self.browser.wait(lambda: self.browser.text("answer"))
        self.assertIn("isn't among those that were given", self.browser.text("answer"))
        self.assertEqual(self.transcript(), before)
        self.browser.ask()
        self.answers(due)
        address, asked = self.browser.driver.current_url, self.transcript()
        self.assertEqual(urllib.parse.parse_qs(urllib.parse.urlsplit(address).fragment), {"answer": ["sum"], "column": ["balance"], "where": [where]})
        self.assertEqual(self.browser.find("#answer a").get_attribute("href"), address)
        self.browser.driver.get("about:blank")
        self.browser.driver.get(address)
        self.browser.wait(lambda: self.browser.all("#answer .number"))
        self.answers(due)
        self.assertEqual(self.transcript(), asked)
        self.go(question="sum", column="nothing", where="all")
        self.assertIn("names a column or a table that isn't here", self.browser.text("answer"))
        self.go(question="constructor", column="balance", where="<img src=x>")
        self.assertEqual(self.browser.find("#where").get_property("value"), "all")

    def test_what_is_typed_is_in_the_address(self):
        self.browser.write("age >= 44")
        self.browser.wait(lambda: "44" in self.browser.driver.current_url)
        self.browser.driver.refresh()
        self.browser.wait(lambda: self.browser.find("#where").get_property("value") == "age >= 44")

    def saved(self, name):
        text = urllib.parse.unquote(self.browser.find(f"#{name} a").get_attribute("href").partition(",")[2])
        return text, list(csv.reader(io.StringIO(text)))

    def test_what_was_asked_and_compared_is_a_file_and_can_be_copied(self):
        where = "age >= 21 and team != 'Bob''s workshop'"
        self.browser.write(where)
        self.browser.ask()
        total = sum(row.salary for row in self.rows if row.age >= 21 and row.team != "Bob's workshop")
        self.browser.write("age = 400")
        self.browser.ask()
        text, lines = self.saved("history-file")
        self.assertEqual(lines, [["table", "ask", "column", "where", "answer", "not answered"], ["", "sum", "salary", "age = 400", "", "no rows"],
                                 ["", "sum", "salary", where, f"{total / 100:.2f}", ""]])
        self.browser.driver.execute_cdp_cmd("Browser.grantPermissions", {"origin": self.office.url, "permissions": ["clipboardReadWrite"]})
        for name in ("history-file", "chart-file"):
            if name == "chart-file":
                self.browser.write("all")
                self.draw("count", "team", 6)
                text = self.saved(name)[0]
                self.assertIn("Engineering,41,41,\n", text)
            self.browser.click(f"#{name} button")
            self.browser.wait(lambda name=name: self.browser.find(f"#{name} button").text == "Copied")
            self.assertEqual(self.browser.driver.execute_async_script("navigator.clipboard.readText().then(arguments[0])"), text)
        self.browser.run("Object.defineProperty(navigator, 'clipboard', {value: undefined})")
        self.browser.draw_again = self.browser.click("#draw")
        self.browser.wait(lambda: self.browser.text("draw") == "Draw" and self.browser.find("#chart-file button").text == "Copy")
        self.browser.click("#chart-file button")
        self.browser.wait(lambda: self.browser.find("#chart-file button").text == "Copied")

    def test_a_wrong_condition_has_its_hint(self):
        self.browser.write("age == 41 AND team = 'Zoë'")
        self.browser.wait(lambda: "Write: age = 41 and team = 'Zoë'" in self.browser.text("holds"))
        self.assertIn("= is written in place of ==.", self.browser.text("holds"))
        said = self.browser.ask()
        self.assertIn("= is written in place of ==.", said)
        self.assertEqual(self.browser.find("#history td:nth-child(2)").text, "not asked: the condition isn't understood")
        self.browser.run("[...document.querySelectorAll('#answer button')].find(one => one.textContent === 'Take it').click()")
        self.browser.wait(lambda: "holds for" in self.browser.text("holds"))
        self.assertEqual(self.browser.find("#where").get_property("value"), "age = 41 and team = 'Zoë'")

    def test_edges_of_controls_can_be_seen(self):
        for dark in (False, True):
            self.browser.screen(1200, 900, dark)
            self.browser.open(self.office.url)
            self.browser.click("#add")
            self.browser.choose("li select[aria-label=comparison]", "in")
            self.browser.write(f"age = {self.single_age()} and site = 'York'")
            self.browser.ask()
            self.assertEqual(self.browser.run(BORDERS), [])

    def test_at_360_pixels_nothing_is_cut_and_no_word_is_broken(self):
        self.browser.screen(360)
        self.browser.open(self.office.url)
        for age in range(20, 33):
            self.browser.run("document.querySelector('#kinds input[value=count]').click()")
            self.browser.write(f"age >= {age}")
            self.browser.ask()
        self.draw("avg salary", "team", 6)
        self.assertEqual(self.browser.run(CUT), [])
        self.assertEqual(self.browser.run(BROKEN), [])
        self.assertEqual(self.browser.run(SQUEEZED), [])
        self.assertEqual(self.browser.too_wide(360), [])
        self.assertIn("bonus", self.browser.text("columns"))
        shown = "return [...document.querySelectorAll('#history tr')].filter(one => one.offsetParent).length"
        self.assertEqual(self.browser.run(shown), 12)
        self.browser.click("#more")
        self.assertEqual(self.browser.run(shown), 19)

    def test_paper_has_the_date_the_address_and_the_squares(self):
        self.browser.ask()
        self.browser.wait(lambda: json.loads(self.office.get("health"))["records"] and self.browser.run(
            "return fetch('report.jsonl').then(one => one.ok)"))
        self.browser.click("#report")
        self.browser.wait(lambda: self.browser.all("#free summary"))
        self.browser.click("#free summary")
        self.browser.wait(lambda: self.browser.all(".square"))
        self.browser.driver.execute_cdp_cmd("Emulation.setEmulatedMedia", {"media": "print"})
        try:
            printed = self.browser.text("printed")
            now = self.browser.run("return new Date().toLocaleString('en-GB', {dateStyle: 'long'})")
            self.assertTrue(printed.startswith(f"Printed on {now}") and printed.endswith(f"from {self.browser.driver.current_url}"), printed)
            self.assertIn(str(datetime.date.today().year), printed)
            self.assertEqual(self.browser.run("return [...document.querySelectorAll('.square')].filter(one => one.offsetParent).length"), 200)
        finally:
            self.browser.driver.execute_cdp_cmd("Emulation.setEmulatedMedia", {"media": ""})
        self.assertFalse(self.browser.find("#printed").is_displayed())
        pdf = base64.b64decode(self.browser.driver.execute_cdp_cmd("Page.printToPDF", {})["data"])
        self.assertTrue(pdf.startswith(b"%PDF"))

    def test_what_is_meant_for_the_operator_isnt_sent_to_askers(self):
        words = json.loads(self.office.get("words.json"))
        self.assertNotIn("ended", words)
        self.assertIn("away", words)
        page = self.office.get("")
        self.assertNotIn("auditor restore", page + json.dumps(words))
        self.assertEqual(page.count("<script"), 1)
        self.assertNotIn("page/", page.partition("<script>")[2])


if __name__ == "__main__":
    unittest.main()
