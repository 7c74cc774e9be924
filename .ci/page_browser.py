"""The page in Chromium, the built programs and what is found wrong, for the cases of .ci/page_cases.py and .ci/page_ways.py."""
import json
import os
import subprocess
import sys
import tempfile

from selenium import webdriver
from selenium.webdriver.chrome.options import Options
from selenium.webdriver.chrome.service import Service
from selenium.common.exceptions import WebDriverException  # noqa: F401
from selenium.webdriver.common.by import By  # noqa: F401
from page_hand import SECONDS, Hand

FLAGS = "--headless=new --no-sandbox --disable-gpu --disable-dev-shm-usage --force-device-scale-factor=1".split()
TOP = os.path.dirname(os.path.dirname(os.path.abspath(__file__)))
VIEWS = ["Open", "Drawing", "Design", "Play", "Check", "Convert", "What is proved"]
# The events of a trace in which scripts run.
SCRIPTS = {"FunctionCall", "EvaluateScript", "RunMicrotasks", "EventDispatch", "TimerFire", "FireAnimationFrame", "HandlePostMessage"}
# What was found wrong.
FAULTS = []
def wrong(title, wanted, found):
    FAULTS.append(title)
    print(f"page: {title}\n  wanted {str(wanted)[:600]}\n  found  {str(found)[:600]}", file=sys.stderr)


def equal(title, wanted, found):
    """Reports what differs from what is wanted."""
    if wanted != found:
        wrong(title, wanted, found)


def examples(ending):
    """The contents of the examples with this ending, by name."""
    names = sorted(name for name in os.listdir(os.path.join(TOP, "examples")) if name.endswith(ending))
    return {name: open(os.path.join(TOP, "examples", name), "rb").read() for name in names}


class Page(Hand):
    """The page in Chromium, opened from the disk."""

    def __init__(self, path, saved, size, traced=None):
        options = Options()
        for flag in [*FLAGS, f"--window-size={size[0]},{size[1]}"]:
            options.add_argument(flag)
        options.binary_location = os.environ.get("CHROMIUM", "/usr/bin/chromium")
        options.add_experimental_option("prefs", {"download.default_directory": saved, "download.prompt_for_download": False,
                                                  "profile.default_content_setting_values.automatic_downloads": 1})
        options.set_capability("goog:loggingPrefs", {"browser": "ALL", "performance": "ALL"})
        if traced:
            options.add_experimental_option("perfLoggingPrefs", {"traceCategories": traced})
        self.driver = webdriver.Chrome(service=Service("/usr/bin/chromedriver"), options=options)
        self.driver.set_script_timeout(SECONDS)
        self.path, self.saved, self.address = path, saved, f"file://{path}"
        self.resize(*size)
        self.open()

    def go(self):
        self.driver.get(self.address)

    def js(self, script, *given):
        return self.driver.execute_script(script, *given)

    def js_later(self, script, *given):
        return self.driver.execute_async_script(script, *given)

    def click(self, words, css="button"):
        self.found(words, css).click()

    def press(self, keys):
        self.driver.switch_to.active_element.send_keys(keys)

    def resize(self, width, height, scale=1):
        """Gives the page this size, also where a window can't be as narrow, with so many pixels a px."""
        self.driver.execute_cdp_cmd("Emulation.setDeviceMetricsOverride", {
            "width": width, "height": height, "deviceScaleFactor": scale, "mobile": False})

    def picture(self, path):
        self.driver.save_screenshot(path)

    def longest_scripts(self):
        """The processor's time in ms of the longest script of each kind in the page's own thread, of what was traced."""
        events = [json.loads(entry["message"])["message"] for entry in self.driver.get_log("performance")]
        events = [event["params"] for event in events if event["method"] == "Tracing.dataCollected"]
        threads = {(event["pid"], event["tid"]) for event in events if event.get("args", {}).get("name") == "CrRendererMain"}
        longest = {}
        for event in events:
            if event["name"] in SCRIPTS and (event["pid"], event["tid"]) in threads:
                longest[event["name"]] = max(longest.get(event["name"], 0), event.get("tdur", event.get("dur", 0)) / 1000)
        return longest

    def faults(self):
        """Errors of the console, and requests that leave the page."""
        for entry in self.driver.get_log("browser"):
            if entry["level"] in ("SEVERE", "WARNING"):
                yield f"console: {entry['message'][:300]}"
        for entry in self.driver.get_log("performance"):
            message = json.loads(entry["message"])["message"]
            if message["method"] in ("Network.requestWillBeSent", "Network.webSocketCreated"):
                address = message["params"].get("request", message["params"])["url"]
                if address != self.address and not address.startswith(("blob:", "data:")):
                    yield f"request: {address[:300]}"


def native(program, words, files):
    """The same of a built program, run in a folder of its own."""
    with tempfile.TemporaryDirectory() as folder:
        for name, content in files.items():
            with open(os.path.join(folder, name), "wb") as file:
                file.write(content)
        done = subprocess.run([os.path.join(os.environ["STITCH_BIN"], program), *map(str, words)], cwd=folder,
                              capture_output=True, timeout=SECONDS, check=False)
        left = {}
        for name in sorted(os.listdir(folder)):
            with open(os.path.join(folder, name), "rb") as file:
                content = file.read()
            if files.get(name) != content:
                left[name] = content
        return done.returncode, done.stdout.decode(), done.stderr.decode(), left
