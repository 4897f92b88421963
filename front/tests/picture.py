"""Takes the pictures of the page that the pages of docs/ show: front.png, table.png and near.png, each over the table of demo.sh.

    AUDITOR=/path/of/the/program /usr/bin/python3 front/tests/picture.py [FOLDER [NAME ..]]
"""
import json
import pathlib
import signal
import subprocess
import sys
import time
import urllib.request

from browser import Browser
from kit import AUDITOR, FRONT, PATIENCE, free_port

DOCS = FRONT.parent / "docs"


def serving(address):
    try:
        with urllib.request.urlopen(f"{address}/health", timeout=PATIENCE) as reply:
            return json.load(reply)["state"] == "serving"
    except OSError:
        return False


def ask_and_draw(browser):
    """A total over those of at least 59 years, and the totals of the same by team: of the board that is one person, so it isn't answered."""
    browser.click("#kinds label:nth-child(2)")
    browser.choose("#column", "salary")
    browser.click("#add")
    browser.choose("#parts li select", "age")
    browser.choose("#parts li select[aria-label=comparison]", ">=")
    browser.find("#parts li input").send_keys("59")
    browser.wait(lambda: browser.text("holds") == "holds for 39 of 240 rows")
    browser.ask()
    browser.choose("#by", "team")
    browser.click("#draw")
    browser.wait(lambda: browser.text("draw") == "Draw" and len(browser.all(".bars tr")) == 7)


def draw_table(browser):
    """Salaries by team and site, with all totals over them: what the board earns is protected, so its total isn't answered."""
    browser.choose("#by", "team")
    browser.choose("#by-too", "site")
    browser.click("#draw")
    browser.wait(lambda: browser.text("draw") == "Draw" and browser.all("#chart-file a"))


def ask_near(browser):
    """The same, and then a cell that isn't answered, with what is near it."""
    draw_table(browser)
    browser.click("#kinds label:nth-child(2)")
    browser.choose("#column", "salary")
    browser.write("team = 'Board' and site = 'Hull'")
    browser.ask()
    browser.run("[...document.querySelectorAll('#answer button')].find(one => one.textContent === 'What is near?').click()")
    browser.wait(lambda: browser.all("#answer code"))


PICTURES = {"front.png": (ask_and_draw, 760), "table.png": (draw_table, 700), "near.png": (ask_near, 860)}


def take(path, make, height):
    port = free_port()
    address = f"http://127.0.0.1:{port}"
    door = subprocess.Popen([FRONT / "demo.sh", AUDITOR, str(port)])
    browser = Browser()
    try:
        while not serving(address):
            time.sleep(0.1)
        browser.screen(1200, height)
        browser.open(f"{address}/office/")
        make(browser)
        browser.run("window.scrollTo(0, 0)")
        browser.driver.save_screenshot(str(path))
    finally:
        browser.close()
        door.send_signal(signal.SIGTERM)
        door.wait(PATIENCE)


def main(folder=DOCS, *names):
    for name in names or PICTURES:
        take(pathlib.Path(folder) / name, *PICTURES[name])


if __name__ == "__main__":
    main(*sys.argv[1:])
