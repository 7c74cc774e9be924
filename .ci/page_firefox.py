"""The page in Firefox, by the Marionette protocol, which Firefox speaks without a driver."""
import json
import os
import shutil
import socket
import subprocess
import tempfile
import time

from page_hand import SECONDS, Hand

PREFERENCES = {"marionette.port": 0, "browser.shell.checkDefaultBrowser": False, "datareporting.policy.dataSubmissionEnabled": False,
               "browser.download.folderList": 2, "browser.download.always_ask_before_handling_new_types": False,
               "browser.download.alwaysOpenPanel": False, "dom.disable_beforeunload": True}


def firefox():
    """The command that starts Firefox, or None."""
    return next(filter(None, map(shutil.which, ["firefox-esr", "firefox"])), None)


class FirefoxPage(Hand):
    """The page, opened from the disk."""

    def __init__(self, path, saved):
        self.profile, self.saved, self.address = tempfile.mkdtemp(), saved, f"file://{path}"
        with open(os.path.join(self.profile, "user.js"), "w", encoding="utf-8") as preferences:
            for name, value in {**PREFERENCES, "browser.download.dir": saved}.items():
                preferences.write(f"user_pref({json.dumps(name)}, {json.dumps(value)});\n")
        self.process = subprocess.Popen([firefox(), "--headless", "--marionette", "--no-remote", "--profile", self.profile],
                                        stdout=subprocess.DEVNULL, stderr=subprocess.DEVNULL)
        self.stream = socket.create_connection(("127.0.0.1", self.port()), SECONDS).makefile("rwb")
        self.received()
        self.number = 0
        self.version = self.call("WebDriver:NewSession", {})["capabilities"]["browserVersion"]
        self.call("WebDriver:SetTimeouts", {"script": SECONDS * 1000})
        self.open()

    def go(self):
        self.call("WebDriver:Navigate", {"url": self.address})

    def js(self, script, *given):
        return self.value("WebDriver:ExecuteScript", script, given)

    def js_later(self, script, *given):
        return self.value("WebDriver:ExecuteAsyncScript", script, given)

    def value(self, command, script, given):
        return self.call(command, {"script": script, "args": list(given), "sandbox": None})["value"]

    def click(self, words, css="button"):
        self.until(lambda: self.found(words, css))
        self.js("""const [words, css] = arguments; [...document.querySelectorAll(css)].find(one => one.checkVisibility() && !one.disabled
            && [one.textContent.trim(), one.getAttribute('aria-label')].includes(words)).click();""", words, css)

    def press(self, keys):
        active = self.call("WebDriver:GetActiveElement", {})["value"]
        self.call("WebDriver:ElementSendKeys", {"id": next(iter(active.values())), "text": keys})

    def port(self):
        """The port on which Firefox listens, once it does."""
        told = os.path.join(self.profile, "MarionetteActivePort")
        end = time.time() + SECONDS
        while not (os.path.exists(told) and open(told, encoding="utf-8").read()):
            if time.time() > end:
                raise AssertionError("Firefox doesn't listen")
            time.sleep(0.05)
        return int(open(told, encoding="utf-8").read())

    def received(self):
        length = b""
        while (byte := self.stream.read(1)) != b":":
            length += byte
        return json.loads(self.stream.read(int(length)))

    def call(self, command, parameters):
        self.number += 1
        message = json.dumps([0, self.number, command, parameters]).encode()
        self.stream.write(b"%d:%s" % (len(message), message))
        self.stream.flush()
        _, _, error, result = self.received()
        if error:
            raise AssertionError(error["message"])
        return result

    def close(self):
        self.call("Marionette:Quit", {"flags": ["eForceQuit"]})
        self.process.wait(SECONDS)
        shutil.rmtree(self.profile, ignore_errors=True)
