"""The extension of Inkscape for redwork: saves a document as a design, and shows its places and its route on layers.

Its dialogs are the files redwork_*.inx, each of which names one of the commands save, look and route.
"""
import contextlib
import os
import re
import sys
import tempfile
import xml.etree.ElementTree as ElementTree

try:
    import inkex
    from lxml import etree
except ImportError as why:
    sys.exit(f"Stitch needs inkex, which this Inkscape can't load: {why}. On Debian: sudo apt install python3-cssselect "
             "python3-lxml python3-numpy")

import svg_by_inkex as library
from redwork_layers import layer, show_places, show_route
from redwork_programs import Failed, Work
from stitch.steps import STEPS
from stitch.svg.drawing import drawing
from stitch.svg.strokes import TooMuch
from stitch.svg.style import Refused

# The first line of the file that has the reason why there is no design.
REFUSED = "Stitch made no design of the drawing:"
# What the shared reader advises, as options of from_svg.py, in the words of this editor.
ADVICE = {"take (a greater )?--apart[^,]*, or divide": "divide", "a longer STEP": "a longer stitch",
          "take --centre, or --width=N": "move it to the page, or scale it", ", or take --width=N": "",
          "; --width=N gives another": ": set it in Document Properties"}


def in_editor(message):
    """A message of the shared reader with the advice that holds in the editor."""
    for option, words in ADVICE.items():
        message = re.sub(option, words, message)
    return message


class Redwork:
    """What saving, look and route do alike: they draw the document, and run the programs on the drawing."""

    def add_arguments(self, pars):
        """The arguments of all dialogs. Lengths are tenths of a millimetre."""
        for name, value in (("command", ""), ("form", "lst"), ("folder", "")):
            pars.add_argument(f"--{name}", default=value)
        for name, value in (("step", 25), ("snap", 2), ("gap", 2)):
            pars.add_argument(f"--{name}", type=int, default=value)
        for name, value in (("cross", False), ("space", True), ("free", False), ("near", False), ("tie", False), ("centre", False),
                            ("skip", False)):
            pars.add_argument(f"--{name}", type=inkex.Boolean, default=value)

    def drawn(self):
        """The drawing of the document, by the reader that from_svg.py uses too."""
        # lxml writes an & in the name of a namespace as it is, such as Illustrator's &ns_ai; after Inkscape has read the file
        text = re.sub(rb'(xmlns:[\w.-]+="[^"&]*)&(?!amp;)', rb"\1&amp;", etree.tostring(self.document))
        try:
            made = drawing(ElementTree.fromstring(text), text.decode("latin-1"), library, step=self.options.step,
                           centre=self.options.centre, skip=self.options.skip)
        except (Refused, TooMuch) as why:
            raise inkex.AbortExtension(in_editor(str(why))) from None
        except (RecursionError, MemoryError):
            raise inkex.AbortExtension("The document is too large, or has too many groups in groups.") from None
        for note in made.notes:
            inkex.errormsg(in_editor(note))
        return made

    def worked(self, act):
        """What an act on the drawing returns. It gets the drawing, and the work on it, on which all that is chosen was done."""
        made = self.drawn()
        with tempfile.TemporaryDirectory() as folder:
            try:
                work = Work(folder, made.text, made.labels)
                work.prepare(self.options.snap, [step for step in STEPS if getattr(self.options, step)])
                return act(made, work)
            except Failed as why:
                raise inkex.AbortExtension(str(why)) from None


def is_commanded():
    """Whether Inkscape was started to export by words on its command line, so far as this can be seen."""
    try:
        with open(f"/proc/{os.getppid()}/cmdline", "rb") as words:
            return any(word[:1] == b"-" for word in words.read().split(b"\0")[1:])
    except OSError:
        return False


def is_reason(name):
    """Whether a file has the reason of an earlier refusal."""
    try:
        with open(name, "rb") as file:
            return file.readline().rstrip() == REFUSED.encode()
    except OSError:
        return False


class Save(Redwork, inkex.OutputExtension):
    """Saves the document as a design, and keeps the drawing and the certificate that `stitch check` judges it by."""

    def save(self, stream):
        try:
            design = self.worked(lambda made, work: self.tied(work, self.kept(work, *work.route(self.options.form))))
        except Exception as why:
            fault = "" if isinstance(why, inkex.AbortExtension) else f"The document can't be read: {type(why).__name__}: "
            design = self.refused(f"{fault}{why}")
        stream.write(design)

    def tied(self, work, design):
        """The design for the machine: tied where it is chosen. The kept proof is about the one without ties."""
        return work.tie(self.options.form) if self.options.tie else design

    def beside(self, ending):
        """The name of a file that is kept: the dialog names its folder, since Inkscape doesn't say where the design goes."""
        path = self.document_path() or ""
        folder = os.path.expanduser(self.options.folder.strip()) or os.path.dirname(path)
        name = os.path.splitext(os.path.basename(path))[0] or "redwork"
        return os.path.join(folder, f"{name}.{self.options.form}.{ending}") if folder else None

    def kept(self, work, design, certificate, _report):
        """The design, once its proof is kept, and no earlier refusal."""
        if self.beside("rw") is None:
            inkex.errormsg("No certificate was kept, as the document has no folder yet: save it, or name one in the dialog.")
            return design
        for ending, contents in (("rw", work.read(work.name)), ("cert", certificate)):
            self.keep(self.beside(ending), contents)
        if is_reason(self.beside("txt")):
            os.remove(self.beside("txt"))
        return design

    def refused(self, why):
        """Keeps and shows why there is no design. An Inkscape without a window ends in a crash where nothing is written, and
        gets the reason in place of the design; one with a window then says that nothing was saved."""
        name, text = self.beside("txt"), f"{REFUSED}\n{why}\n".encode()
        with contextlib.suppress(inkex.AbortExtension):
            if name and (is_reason(name) or not os.path.exists(name)):
                self.keep(name, text)
                why += f"\nThis is in {name} too."
        inkex.errormsg(why)
        if not is_commanded():
            sys.exit(1)
        return text

    def keep(self, name, contents):
        """Writes a file beside the design."""
        try:
            with open(name, "wb") as out:
                out.write(contents)
        except OSError as why:
            raise inkex.AbortExtension(f"cannot write {name}: {why.strerror}: name another folder in the dialog") from None


class Look(Redwork, inkex.EffectExtension):
    """Shows the places that were probably not meant."""

    def effect(self):
        made, places = self.worked(lambda made, work: (made, work.places(self.options.gap)))
        show_places(layer(self.svg, made.page, "Redwork look"), places)
        if not places:
            inkex.errormsg("No place was found.")


class Route(Redwork, inkex.EffectExtension):
    """Shows the thread as it is sewn."""

    def effect(self):
        made, (design, _, report) = self.worked(lambda made, work: (made, work.route("lst")))
        show_route(layer(self.svg, made.page, "Redwork route"), design.decode("ascii"), report)


if __name__ == "__main__":
    COMMANDS = {"--command=save": Save, "--command=look": Look, "--command=route": Route}
    next(COMMANDS[word] for word in sys.argv if word in COMMANDS)().run()
