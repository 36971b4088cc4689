"""The page in Chromium without a screen, for the tests."""
import argparse
import base64
import json
import pathlib
import shutil
import subprocess
import sys
import tempfile
import time
import traceback

__all__ = ["TOP", "WIDE", "ActionChains", "By", "Keys", "ScrollOrigin", "WebDriverWait", "run", "start"]
SKIPPED = 77
try:
    from selenium import webdriver
    from selenium.webdriver import ActionChains
    from selenium.webdriver.chrome.options import Options
    from selenium.webdriver.chrome.service import Service
    from selenium.webdriver.common.by import By
    from selenium.webdriver.common.actions.wheel_input import ScrollOrigin
    from selenium.webdriver.common.keys import Keys
    from selenium.webdriver.support.ui import WebDriverWait
except ImportError:
    print("selenium is not installed (of Debian: apt install python3-selenium): the page in a browser")
    sys.exit(SKIPPED)
CHROMIUM, DRIVER = shutil.which("chromium"), shutil.which("chromedriver")
if not CHROMIUM or not DRIVER:
    print("chromium is not installed (of Debian: apt install chromium chromium-driver): the page in a browser")
    sys.exit(SKIPPED)

WIDE = (1400, 1560)
TOP = pathlib.Path(__file__).resolve().parents[2]


def start(downloads=None):
    """A browser, which saves what is downloaded in a folder."""
    options = Options()
    options.binary_location = CHROMIUM
    for word in ("--headless=new", "--no-sandbox", "--disable-dev-shm-usage", "--disable-gpu"):
        options.add_argument(word)
    options.add_experimental_option("prefs", {"download.default_directory": str(downloads)})
    options.set_capability("goog:loggingPrefs", {"browser": "ALL", "performance": "ALL"})
    return webdriver.Chrome(service=Service(DRIVER), options=options)


class Trial:
    """The page in a browser, and how much of it was found right and wrong."""

    def __init__(self, name, given, folder):
        self.name, self.page, self.program, self.logs, self.given = name, given.page, given.program, given.logs, given
        self.folder, self.downloads = folder, folder / "saved"
        self.downloads.mkdir()
        self.passed = self.failed = 0
        self.browser = start(self.downloads)
        self.browser.set_window_size(*WIDE)
        self.open()

    def open(self):
        self.browser.get(self.page.resolve().as_uri())
        self.until("return document.body.dataset.ready || document.querySelector('#status.fault')")

    def tries(self, test):
        """A test that breaks off counts as a failure, and the next one finds a new page."""
        try:
            test(self)
        except Exception as fault:  # pylint: disable=broad-exception-caught
            where = ", ".join(str(frame.lineno) for frame in traceback.extract_tb(fault.__traceback__)[1:4])
            self.check(False, f"{test.__name__} breaks off at lines {where}: {type(fault).__name__} {str(fault).splitlines()[:1]}")
            self.browser.set_window_size(*WIDE)
            self.open()

    def run(self, script, *words):
        return self.browser.execute_script(script, *words)

    def until(self, script, seconds=30):
        return WebDriverWait(self.browser, seconds, poll_frequency=0.05).until(lambda it: it.execute_script(script))

    def check(self, is_so, what):
        if is_so:
            self.passed += 1
        else:
            self.failed += 1
            print(f"web/test/{self.name}: {what}: WRONG", file=sys.stderr)

    def find(self, selector):
        return self.browser.find_element(By.CSS_SELECTOR, selector)

    def all(self, selector):
        return self.browser.find_elements(By.CSS_SELECTOR, selector)

    def written(self, *words):
        """What the program writes."""
        return subprocess.run([self.program, *map(str, words)], stdout=subprocess.PIPE, stderr=subprocess.DEVNULL, check=True).stdout.decode("latin-1")

    def log(self, name, lines):
        """A log of these lines, in the folder of this test."""
        file = self.folder / name
        file.write_text("".join(line + "\n" for line in lines))
        return file

    def status(self):
        return self.browser.find_element(By.ID, "status").text

    def after(self, act):
        """The counts of the log that is read after this, or none where the page said a fault."""
        self.run("delete document.body.dataset.done; document.getElementById('status').className = ''")
        act()
        self.until("return document.body.dataset.done || document.querySelector('#status.fault')")
        counts = self.run("return document.body.dataset.done")
        return json.loads(counts) if counts else None

    def choose(self, file, by="file"):
        """Hands a file in by a file input: a log, or a table."""
        return self.after(lambda: self.browser.find_element(By.ID, by).send_keys(str(file.resolve())))

    def drop(self, log):
        """Drops a log on the page, as a hand does."""
        self.run("""delete document.body.dataset.done;
            const all = new DataTransfer();
            all.items.add(new File([arguments[1]], arguments[0]));
            document.getElementById('drop').dispatchEvent(
              new DragEvent('drop', {bubbles: true, cancelable: true, dataTransfer: all}));""",
                 log.name, log.read_text("latin-1"))
        self.until("return document.body.dataset.done")

    def finished(self):
        """What was saved: what the browser still writes is hidden or has a name of its own."""
        left = list(self.downloads.iterdir())
        return left[0] if len(left) == 1 and left[0].name[0] != "." and left[0].suffix != ".crdownload" else None

    def download(self, button):
        """The bytes that a button saves."""
        for old in self.downloads.iterdir():
            old.unlink()
        self.browser.find_element(By.ID, button).click()
        for _ in range(400):
            time.sleep(0.05)
            file = self.finished()
            if file and file.stat().st_size:
                return file.read_bytes()
        return b""

    def saved(self, button, want, what):
        """A button has to save these bytes. The file is there before they are."""
        for old in self.downloads.iterdir():
            old.unlink()
        self.browser.find_element(By.ID, button).click()
        end, is_so = time.time() + 20, False
        while not is_so and time.time() < end:
            time.sleep(0.05)
            file = self.finished()
            is_so = file is not None and file.read_bytes() == want
        self.check(is_so, what)

    def picture(self, file, width, first="html", last="html"):
        """The page as a picture, from the top of one element to the foot of another."""
        for height in (900, 4000):
            self.browser.execute_cdp_cmd("Emulation.setDeviceMetricsOverride", {"width": width, "height": height, "deviceScaleFactor": 1, "mobile": width < 600})
            time.sleep(0.7)
        top, foot = self.run("""const [a, b] = [...arguments].map(it => document.querySelector(it).getBoundingClientRect());
            return [a.top + scrollY, b.bottom + scrollY]""", first, last)
        shot = self.browser.execute_cdp_cmd("Page.captureScreenshot", {"captureBeyondViewport": True, "clip": {
            "x": 0, "y": top, "width": width, "height": foot - top, "scale": 1}})
        file.write_bytes(base64.b64decode(shot["data"]))
        self.browser.execute_cdp_cmd("Emulation.clearDeviceMetricsOverride", {})


def run(name, tests):
    """Tries all of these on a page, and says how many things were right and wrong."""
    words = argparse.ArgumentParser()
    words.add_argument("page", type=pathlib.Path)
    words.add_argument("program", type=pathlib.Path)
    words.add_argument("logs", nargs="*", type=pathlib.Path)
    words.add_argument("--pictures", type=pathlib.Path)
    words.add_argument("--fleet", type=pathlib.Path)
    words.add_argument("--random", type=int, default=40)
    words.add_argument("--only", default="")
    given = words.parse_args()
    with tempfile.TemporaryDirectory() as below:
        trial = Trial(name, given, pathlib.Path(below))
        try:
            for test in tests:
                if given.only in test.__name__:
                    trial.tries(test)
        finally:
            trial.browser.quit()
    print(f"web/test/{name}: {trial.passed} passed, {trial.failed} failed")
    sys.exit(1 if trial.failed else 0)
