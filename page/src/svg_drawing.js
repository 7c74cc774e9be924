// The drawing of the strokes of an SVG file: its lines as whole points, by threads of the palette, and its text.
// Lengths are tenths of a millimetre, but for `within` and `apart`: millimetres. The rules are those of python/stitch/svg/drawing.py.
import { Refused } from "./refused.js";
import { linesOf } from "./svg_paths.js";
import { MAX_POINTS, atExtremes, pointsOf, rounded } from "./svg_points.js";
import { text } from "./texts.js";
import { nearestThread, threadOf } from "./threads.js";

const LINES = 1024, STEPS = 200000, REACH = 30000, BLOCKS = 255;
const least = (list, axis) => list.reduce((most, point) => Math.min(most, point[axis]), Infinity);
const most = (list, axis) => list.reduce((most, point) => Math.max(most, point[axis]), -Infinity);
const sum = list => list.reduce((all, one) => all + one, 0);

// The least and the greatest x and y of some points.
function extentOf(points) {
    return [least(points, 0), least(points, 1), most(points, 0), most(points, 1)];
}

// Lengths of a px, of which 96 are an inch, in tenths of a millimetre.
const PX = 254 / 96;

// A point of a shape after its map a b c d e f to px: x becomes a x + c y + e, and y becomes b x + d y + f.
function placed([a, b, c, d, e, f], [x, y]) {
    const point = [a * x + c * y + e, b * x + d * y + f].map(part => PX * part);
    if (!(Math.abs(point[0]) + Math.abs(point[1]) < 1e9)) throw new Refused("svg.large");
    return point;
}

// How far outside a clip a line may reach: less than is rounded.
const CLIPPED = 0.5;

// Whether a line is within a clip: the map of its units to px, and its sides.
function isWithin(line, { map: [a, b, c, d, e, f], sides: [left, upper, right, lower] }) {
    const by = a * d - b * c, near = CLIPPED / PX / Math.max(Math.hypot(a, b), Math.hypot(c, d));
    const own = ([x, y]) => [(d * (x / PX - e) - c * (y / PX - f)) / by, (a * (y / PX - f) - b * (x / PX - e)) / by];
    return atExtremes(line.map(piece => piece.map(own))).flatMap(piece => [piece[0], piece.at(-1)]).every(([x, y]) =>
        left - near <= x && x <= right + near && upper - near <= y && y <= lower + near);
}

// The lines of what a Reader found by colour, each with its label, and what is left out: `faults`, which aren't lines, by name,
// and the counts of the rest. Of shapes with a fill alone, or without a stroke, the outlines are lines where that is chosen. All
// that is in a clip that cuts something off is left out.
function collected({ entries, notes, title }, { outlines = false }) {
    const found = { blocks: new Map(), faults: [], leftOut: new Map(), notes, title };
    const leave = (what, count) => found.leftOut.set(what, (found.leftOut.get(what) ?? 0) + count);
    const isShape = entry => entry.path !== undefined && (outlines || !entry.leave && !entry.fault);
    const shapes = new Map(entries.filter(isShape).map(entry => [entry, linesIn(entry)]));
    const cut = new Set([...shapes].flatMap(([{ clips }, { lines = [] }]) =>
        clips.filter(clip => !lines.every(line => isWithin(line, clip)))));
    for (const entry of entries) {
        const shape = shapes.get(entry);
        if (shape?.fault) found.faults.push(shape);
        else if (shape) addShape(entry, entry.clips.some(clip => cut.has(clip)) ? null : shape.lines, found, leave);
        else if (entry.leave) leave(entry.leave, 1);
        else found.faults.push(entry);
    }
    for (const { name } of cut) found.faults.push({ name, fault: "svg.clipped", words: text("svg.clipped") });
    return found;
}

// The lines of a shape, or why it can't be read.
function linesIn({ name, path, map }) {
    try {
        return { lines: linesOf(path).map(line => line.map(piece => piece.map(point => placed(map, point)))) };
    } catch (why) {
        if (!(why instanceof Refused)) throw why;
        return { name, fault: why.key, words: why.message };
    }
}

// Adds the lines of a shape to the block of its colour, if it is no part of what a clip cuts.
function addShape({ colour, label }, lines, { blocks }, leave) {
    if (!lines) return;
    leave("empty", lines.length ? 0 : 1);
    if (!blocks.has(colour)) blocks.set(colour, []);
    blocks.get(colour).push(...lines.map(line => [label, line]));
}

// The lines, cut where they reach the edges of the drawing, and as wide as requested. Left and upper edge stay.
function scaled(blocks, width) {
    const lines = [...blocks.values()].flat().map(([, line]) => line);
    const ends = lines.flatMap(line => atExtremes(line).flatMap(piece => [piece[0], piece.at(-1)]));
    const [left, top, right, low] = extentOf(ends), across = right - left, down = low - top;
    if (width && across < 0.5) throw new Refused("svg.noWidth");
    const by = width ? width / across : 1, corner = width ? [left, top] : [0, 0];
    const size = Math.max(across, down) * by;
    if (size > 2 * REACH + 1) throw new Refused("svg.tooWide", { size: Math.round(size), most: 2 * REACH });
    const stay = rounded(corner), near = 1e-6 * Math.max(across, down);
    const isEdge = ([x, y]) =>
        Math.min(Math.abs(x - left), Math.abs(right - x), Math.abs(y - top), Math.abs(low - y)) <= near;
    const place = point => point.map((part, axis) => (part - corner[axis]) * by + stay[axis]);
    return mapLines(blocks, line => atExtremes(line, isEdge).map(piece => piece.map(place)));
}

// The blocks with each line changed.
function mapLines(blocks, change) {
    return new Map([...blocks].map(([colour, lines]) => [colour, lines.map(([label, line]) => [label, change(line)])]));
}

// The lines of whole points by colour. Those of a single point are counted.
function wholeLines({ blocks: given, leftOut }, width, within, apart) {
    const drawn = [...given.values()].some(lines => lines.length) ? scaled(given, width) : new Map();
    const curves = [...drawn.values()].flat().flatMap(([, line]) => line).filter(piece => piece.length === 4);
    const way = sum(curves.map(([a, , , d]) => Math.hypot(d[0] - a[0], d[1] - a[1])));
    if (way > MAX_POINTS * 10 * apart) throw new Refused("svg.points", { most: MAX_POINTS });
    const blocks = new Map();
    let total = 0;
    for (const [colour, lines] of drawn) {
        for (const [label, line] of lines) {
            const points = pointsOf(line, 10 * within, 10 * apart);
            total += points.length;
            if (total > MAX_POINTS) throw new Refused("svg.points", { most: MAX_POINTS });
            if (points.length < 2) leftOut.set("point", (leftOut.get("point") ?? 0) + 1);
            else if (blocks.has(colour)) blocks.get(colour).push([label, points]);
            else blocks.set(colour, [[label, points]]);
        }
    }
    return blocks;
}

// How many points inside lines are listed again by their block, at which lines are cut.
function cutsOf(lines) {
    const listed = new Map();
    for (const [, points] of lines) for (const point of points) listed.set(point.join(), (listed.get(point.join()) ?? 0) + 1);
    return sum(lines.map(([, points]) => points.slice(1, -1).filter(point => listed.get(point.join()) > 1).length));
}

// Refuses what a drawing can't hold.
function checkLimits(blocks, step) {
    const lines = [...blocks.values()].flat().map(([, points]) => points), count = sum(lines.map(points => points.length));
    const cuts = sum([...blocks.values()].map(cutsOf));
    const steps = sum(lines.map(points => sum(points.slice(1).map((point, k) =>
        Math.ceil(Math.max(Math.abs(point[0] - points[k][0]), Math.abs(point[1] - points[k][1])) / step)))));
    const reach = lines.flat().reduce((far, [x, y]) => Math.max(far, Math.abs(x), Math.abs(y)), 0);
    for (const [found, limit, key] of [[blocks.size, BLOCKS, "svg.manyColours"], [lines.length, LINES, "svg.manyLines"],
        [lines.length + cuts, LINES, "svg.manySections"], [count + cuts, MAX_POINTS, "svg.manyPoints"],
        [steps, STEPS, "svg.manySteps"], [reach, REACH, "svg.farAway"]]) {
        if (found > limit) throw new Refused(key, { found, limit });
    }
}

// The lines of whole points, moved so that their middle is 0 0 where requested; with their size and their middle.
function centred(blocks, isCentred) {
    const [left, top, right, low] = extentOf([...blocks.values()].flat().flatMap(([, points]) => points));
    const x = Math.floor((left + right) / 2), y = Math.floor((top + low) / 2), size = [right - left, low - top];
    if (!isCentred) return { blocks, size, middle: [x, y] };
    return { blocks: mapLines(blocks, points => points.map(([a, b]) => [a - x, b - y])), size, middle: [0, 0] };
}

// A colour of the file as #rrggbb, with its thread: the one that is chosen for it, or the nearest.
function colourOf(key, chosen) {
    const bytes = key.split(",").map(Number);
    const colour = `#${bytes.map(part => part.toString(16).padStart(2, "0")).join("")}`;
    return { colour, thread: chosen[colour] ? threadOf(chosen[colour]) : nearestThread(bytes) };
}

// The text of a drawing, with a comment before each block, and before the lines of each label.
function textOf(blocks, title, step, chosen) {
    const lines = ["redwork 2", ...title ? [`name ${title}`] : [], `step ${step}`];
    for (const [key, block] of blocks) {
        const { colour, thread } = colourOf(key, chosen);
        lines.push(`# ${colour} thread ${thread.number} ${thread.name}`, `color ${thread.number}`);
        block.forEach(([label, points], k) => {
            if (label && (k === 0 || label !== block[k - 1][0])) lines.push(`# ${label}`);
            lines.push(`line ${points.map(point => point.join(" ")).join(" ")}`);
        });
    }
    return `${lines.join("\n")}\n`;
}

// The drawing of the strokes that a Reader found: its text, its colours with their threads, its size and middle, what was left out
// (`faults`, each named, and `leftOut`, a line with counts), and what is to be heeded (`notes`). Or why there is none: `refused`,
// each with its key, and whether something is left without the things that are refused.
export function drawingOf(strokes, options = {}) {
    const { step = 25, within = 0.1, apart = 0.5, width = null, isCentred = false, skip = false, threads = {} } = options;
    try {
        const all = collected(strokes, options), { faults, notes, title } = all;
        const kept = skip === true ? [] : faults.filter(({ fault }) => !(skip || []).includes(fault));
        if (kept.length) {
            return { refused: kept.map(({ fault, name, words }) => ({ key: fault, words: `${name}: ${words}` })),
                isSkippable: [...all.blocks.values()].some(lines => lines.length) };
        }
        const found = wholeLines(all, width, within, apart);
        const counted = [...all.leftOut].filter(([, count]) => count).map(([what, count]) => text(`svg.left.${what}`, { count }));
        const leftOut = counted.length ? text("svg.left", { list: counted.join(", ") }) : "";
        if (!found.size) throw new Refused(faults.length ? "svg.nothingLeft" : "svg.nothing", { leftOut: leftOut && `; ${leftOut}` });
        const { blocks, size, middle } = centred(found, isCentred);
        checkLimits(blocks, step);
        const colours = [...blocks.keys()].map(key => colourOf(key, threads));
        return { text: textOf(blocks, title, step, threads), colours, size, middle, leftOut, notes: width === null ? notes : [],
            faults: faults.map(({ name, words }) => `${name}: ${words}`) };
    } catch (why) {
        if (why instanceof RangeError) return { refused: [{ key: "svg.tooDeep", words: text("svg.tooDeep") }] };
        if (why instanceof Refused) return { refused: [{ key: why.key, words: why.message, values: why.values }] };
        throw why;
    }
}
