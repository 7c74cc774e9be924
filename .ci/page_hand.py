"""What a person does in the page, and what a test reads of it, in any browser."""
import base64
import os
import time

SECONDS = 300
# Runs a program in the page; the files come and go as base64.
RUN = """const [program, words, files, done] = arguments;
const bytesOf = text => Uint8Array.from(atob(text), one => one.charCodeAt(0));
const textOf = bytes => { let text = ''; for (let k = 0; k < bytes.length; k += 32768)
    text += String.fromCharCode(...bytes.subarray(k, k + 32768)); return btoa(text); };
window.stitch.run(program, words, files.map(([name, text]) => ({ name, bytes: bytesOf(text) }))).then(reply => done({
    ...reply, files: reply.files.map(({ name, bytes }) => [name, textOf(bytes)]) }), why => done({ failed: String(why) }));"""
# Removes the work that the page keeps.
FORGET = """const [done] = arguments, asked = indexedDB.open('stitch', 1);
asked.onsuccess = () => { const store = asked.result.transaction('work', 'readwrite'); store.objectStore('work').clear();
    store.oncomplete = () => { asked.result.close(); done(); }; };
asked.onerror = () => done();"""
# Drops files on the page, as a hand does.
DROP = """const [place, files] = [document.querySelector(arguments[0]), arguments[1]], given = new DataTransfer();
for (const [name, text] of files) given.items.add(new File([Uint8Array.from(atob(text), one => one.charCodeAt(0))], name));
for (const kind of ['dragover', 'drop'])
    place.dispatchEvent(new DragEvent(kind, { dataTransfer: given, bubbles: true, cancelable: true }));"""


def packed(files):
    return [[name, base64.b64encode(content).decode()] for name, content in files.items()]


class Hand:
    """The page in a browser: a class below has `js` and `js_later`, which run a script and one that calls its last argument, `go`, which
    opens the address, `press`, which types a key where the focus is, and `saved`, the folder of saved files."""

    def open(self):
        """Opens the page, as if it had been closed before."""
        self.go()
        self.until(lambda: self.js("return Boolean(window.stitch)"))
        self.settle()

    def fresh(self):
        """Opens the page without the work that it kept."""
        self.settle()
        time.sleep(0.5)
        self.js_later(FORGET)
        self.open()

    def until(self, holds, seconds=SECONDS):
        """Waits until a condition holds, and returns its value."""
        end = time.time() + seconds
        while not (found := holds()):
            if time.time() > end:
                raise AssertionError("not within the time")
            time.sleep(0.02)
        return found

    def run(self, program, words, files):
        """The reply of a program in the page: its status, what it printed, and the files that it wrote."""
        reply = self.js_later(RUN, program, [str(word) for word in words], packed(files))
        if "failed" in reply and reply["failed"]:
            raise AssertionError(reply["failed"])
        return reply["outcome"], reply["out"], reply["err"], {name: base64.b64decode(text) for name, text in reply["files"]}, reply

    def drop(self, files):
        """Drops files, and waits until the page has done with them."""
        self.js(DROP, "main", packed(files))
        time.sleep(0.1)
        self.settle()

    def type(self, words):
        """Types a text of a drawing in place of the one that is there."""
        self.js("""const area = document.querySelector('textarea'); area.value = arguments[0];
            area.dispatchEvent(new Event('input', { bubbles: true }));""", words)
        time.sleep(0.6)
        self.settle()

    def typed(self):
        return self.js("return document.querySelector('textarea').value")

    def set(self, name, value, scope="body"):
        """Gives a value to the shown control of this name, as a hand does."""
        self.until(lambda: self.js("""const [name, value, scope] = arguments;
            const found = [...document.querySelectorAll(`${scope} input, ${scope} select`)].find(one => one.checkVisibility()
                && (one.getAttribute('aria-label') ?? one.labels[0]?.textContent) === name);
            if (!found) return false;
            if (found.type === 'checkbox' || found.type === 'radio') found.click();
            else { found.value = value; found.dispatchEvent(new Event('change', { bubbles: true })); }
            return true;""", name, value, scope))
        time.sleep(0.1)
        self.settle()

    def shown(self, css):
        """The elements of a selector that are shown."""
        return self.js("return [...document.querySelectorAll(arguments[0])].filter(one => one.checkVisibility())", css)

    def says(self, css):
        """The texts of the elements of a selector that are shown."""
        return self.js("""return [...document.querySelectorAll(arguments[0])].filter(one => one.checkVisibility())
            .map(one => one.innerText.trim())""", css)

    def view(self, name):
        self.click(name, "[role=tab]")
        self.settle()

    def found(self, words, css):
        """The shown element that has this text, or is called so."""
        return self.until(lambda: self.js("""
            const [words, css] = arguments, found = [...document.querySelectorAll(css)].find(one => one.checkVisibility()
                && !one.disabled && [one.textContent.trim(), one.getAttribute('aria-label')].includes(words));
            found?.scrollIntoView({ block: 'center' });
            return found;""", words, css))

    def focus(self, css):
        self.js("document.activeElement.blur(); document.querySelector(arguments[0]).focus();", css)

    def is_idle(self):
        """Whether no program runs, and none has for a moment."""
        return self.js("return !window.stitch.runs()")

    def settle(self):
        """Waits until no program has run for a while."""
        quiet, end = 0, time.time() + SECONDS
        while quiet < 6:
            quiet = quiet + 1 if self.is_idle() else 0
            if time.time() > end:
                raise AssertionError("it runs on: " + self.js("return document.querySelector('footer').textContent"))
            time.sleep(0.05)

    def saved_file(self, name):
        """The content of a file that the browser saved."""
        path = os.path.join(self.saved, name)
        self.until(lambda: os.path.exists(path) and not any(one.endswith((".crdownload", ".part")) for one in os.listdir(self.saved)))
        with open(path, "rb") as file:
            content = file.read()
        os.remove(path)
        return content
