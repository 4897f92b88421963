"""A headless Chromium for tests of the page. If there is none, the test is skipped and says what to install."""
import shutil
import tempfile
import unittest

from kit import PATIENCE

try:
    from selenium import webdriver
    from selenium.webdriver.chrome.service import Service
    from selenium.webdriver.common.action_chains import ActionChains
    from selenium.webdriver.common.by import By
    from selenium.webdriver.common.keys import Keys
    from selenium.webdriver.support.ui import WebDriverWait
except ImportError:
    webdriver = None

MISSING = "no Chromium here (apt-get install --no-install-recommends chromium chromium-driver python3-selenium)"


class Browser:
    """One Chromium with a profile of its own, and short words for what tests do with it."""

    def __init__(self, any_certificate=False):
        if webdriver is None or not shutil.which("chromedriver") or not shutil.which("chromium"):
            print("skipped:", MISSING, flush=True)
            raise unittest.SkipTest(MISSING)
        self.profile = tempfile.mkdtemp(prefix="page-browser-")
        options = webdriver.ChromeOptions()
        for argument in ("--headless=new", "--no-sandbox", "--disable-gpu", "--disable-dev-shm-usage", "--hide-scrollbars",
                         "--window-size=1200,1000", f"--user-data-dir={self.profile}"):
            options.add_argument(argument)
        options.accept_insecure_certs = any_certificate
        options.set_capability("goog:loggingPrefs", {"browser": "ALL"})
        self.driver = webdriver.Chrome(service=Service(shutil.which("chromedriver")), options=options)

    def close(self):
        self.driver.quit()
        shutil.rmtree(self.profile, ignore_errors=True)

    def open(self, url):
        """Opens the page afresh, with nothing kept from before, and waits until its first count is there."""
        self.driver.get(url + "/")
        if self.run("const kept = localStorage.length; localStorage.clear(); return kept"):
            self.driver.refresh()
        self.wait(lambda: self.text("holds"))

    def wait(self, holds):
        WebDriverWait(self.driver, PATIENCE, poll_frequency=0.05).until(lambda _: holds())

    def find(self, selector):
        return self.driver.find_element(By.CSS_SELECTOR, selector)

    def all(self, selector):
        return self.driver.find_elements(By.CSS_SELECTOR, selector)

    def text(self, name):
        return self.find("#" + name).text

    def click(self, selector):
        self.find(selector).click()

    def run(self, script, *arguments):
        return self.driver.execute_script(script, *arguments)

    def choose(self, selector, value, within=None):
        """Chooses a value of a list as a person does: the page hears of it."""
        select = (within or self.driver).find_element(By.CSS_SELECTOR, selector)
        self.run("arguments[0].value = arguments[1]; arguments[0].dispatchEvent(new Event('input', {bubbles: true}));"
                 "arguments[0].dispatchEvent(new Event('change', {bubbles: true}))", select, value)

    def write(self, condition):
        area = self.find("#where")
        area.clear()
        area.send_keys(condition)

    def ask(self, button="ask"):
        """Clicks and waits for the reply."""
        self.click("#" + button)
        self.wait(lambda: self.find("#ask").get_attribute("aria-disabled") == "false" and self.text("answer"))
        return self.text("answer")

    def keys(self, *names):
        """Presses keys, one after the other, wherever the focus is."""
        named = {"ArrowLeft": Keys.LEFT, "ArrowRight": Keys.RIGHT, "ArrowDown": Keys.DOWN, "Enter": Keys.ENTER, "Tab": Keys.TAB}
        for name in names:
            ActionChains(self.driver).send_keys(named.get(name, name)).perform()

    def tab_to(self, selector):
        """Presses Tab until the first element of the selector, or another of its radio group, has the focus."""
        for _ in range(100):
            self.keys("Tab")
            if self.run("return document.activeElement.matches(arguments[0])", selector):
                return
        raise AssertionError(f"Tab doesn't lead to {selector}")

    def screen(self, width, height=1000, dark=False):
        self.driver.execute_cdp_cmd("Emulation.setEmulatedMedia", {"features": [
            {"name": "prefers-color-scheme", "value": "dark" if dark else "light"}]})
        self.driver.execute_cdp_cmd("Emulation.setDeviceMetricsOverride", {
            "width": width, "height": height, "deviceScaleFactor": 1, "mobile": width < 600})

    def too_wide(self, width):
        """What is cut at a width or makes the page wider. What scrolls within its own box isn't."""
        return self.run("""return [...document.querySelectorAll('body *')].filter(node =>
            !node.closest('.unseen, .scroll *, #chart *, script, noscript') && node.getBoundingClientRect().right > arguments[0])
            .map(node => node.outerHTML.slice(0, 80)).concat(document.documentElement.scrollWidth > arguments[0] ? ["the page"] : [])""", width)

    def faults(self):
        """What the console says, but for files that a door need not have, and a door that is starting again after a report."""
        known = ("/notes.json - Failed to load resource: the server responded with a status of 404",
                 "/report.jsonl - Failed to load resource: the server responded with a status of 404",
                 "/tables.json - Failed to load resource: the server responded with a status of 404",
                 "/health - Failed to load resource: the server responded with a status of 503")
        return [entry["message"] for entry in self.driver.get_log("browser") if not any(line in entry["message"] for line in known)]
