// SVG files as drawings: read once, and made a drawing again whenever an option of the reading changes.
import { Stopped } from "../stitch.js";
import { addStep, makeReady, openDrawing } from "./actions.js";
import { task } from "./commands.js";
import { scaledText } from "./drawing.js";
import { mm } from "./elements.js";
import { baseOf } from "./files.js";
import { change, drawn, state } from "./state.js";
import { strokesOf } from "./svg_strokes.js";
import { text } from "./texts.js";

// The strokes of the file that was read last, and the number of the reading: the last one wins.
let read = {}, turn = 0;

async function strokes(source, { isReleased, isPlain }) {
    if (read.source !== source || read.isReleased !== isReleased || read.isPlain !== isPlain) {
        read = { source, isReleased, isPlain, strokes: await strokesOf(source, { isReleased, isPlain }) };
    }
    return read.strokes;
}

// The drawing of an SVG file's text, or why there is none.
export async function drawingOfSvg(source, options) {
    const found = await strokes(source, options);
    return found.refused ? found : task("svg", [found, options]);
}

// Opens an SVG file, with what is chosen for its reading. It is a step of the drawing, also where it was open before.
async function openRead(file, options, isNew) {
    const mine = ++turn;
    change({ acting: text("svg.reading", { name: file.name }), ...isNew ? { refusedSvg: null } : {} });
    let made = null;
    try {
        made = await drawingOfSvg(file.source, options);
    } catch (why) {
        if (!(why instanceof Stopped)) throw why;
    } finally {
        if (mine === turn) change({ acting: null });
    }
    if (!made || mine !== turn) return;
    if (made.refused) {
        change({ refusedSvg: { file, options, ...made }, view: "open" });
        return;
    }
    const { text: words, ...rest } = made, isAgain = !isNew && drawn()?.svg?.file === file;
    const what = isAgain ? text("svg.again", { name: file.name }) : file.name;
    openDrawing(baseOf(file.name), words, what, { step: { svg: { file, options, ...rest } }, state: { view: "open",
        ...isAgain ? { finish: state.finish, way: state.way, saved: state.saved } : {} } });
}

export function openSvg(name, source) {
    return openRead({ name, source }, {}, true);
}

// Reads the SVG file again that is refused, or that is open.
export function readAgain(options) {
    const { file, options: before } = state.refusedSvg ?? drawn().svg;
    return openRead(file, { ...before, ...options }, false);
}

// Makes the drawing as wide as this, in tenths of a millimetre. An SVG file is read again, and made ready where it was. The points of
// another drawing are multiplied.
export async function makeWide(size, width) {
    const { svg, ready, isOpening, text: words } = drawn();
    if (!svg || !isOpening && !ready) {
        addStep(scaledText(words, width / size[0]), text("hoop.madeWide", { width: mm(width) }), { state: { said: null } });
        return;
    }
    await readAgain({ width });
    if (ready) await makeReady();
}
