// The picture of a drawing in which points can be chosen, with its hoop.
import { drawn } from "./elements.js";
import { fitOf } from "./hoop.js";
import { text } from "./texts.js";
import { threadOf } from "./threads.js";

// So many pieces have their number in the picture.
const NUMBERED = 200;

// A mark at a point, whose parts count units from it. It grows less than the picture does.
function mark([x, y], unit, ...parts) {
    return drawn("g", { transform: `translate(${x} ${y}) scale(${unit})` }, drawn("g", { class: "mark" }, parts));
}

// A number on a disc beside a point.
function number(count) {
    return drawn("g", { class: "piece" }, drawn("circle", { cx: 13, cy: -13, r: 9 }), drawn("text", { x: 13, y: -8.8,
        "font-size": 12 }, String(count)));
}

// Dots at points: one path of lines without length, as wide as the class says at any size of the picture.
function dots(points, kind) {
    return points.length > 0 && drawn("path", { class: `dots ${kind}`, d: points.map(([x, y]) => `M${x} ${y}h0`).join("") });
}

// The parts of a block: its lines, junctions, starts and ends.
function blockParts(block, unit) {
    const { colour } = threadOf(block.thread), odd = block.junctions.filter(([, , isOdd]) => isOdd);
    return [
        drawn("path", { class: "line", d: block.path, stroke: colour }),
        dots(block.junctions.filter(([, , isOdd]) => !isOdd), "even"), dots(odd, "edge"), dots(odd, "odd"),
        block.starts.map(point => mark(point, unit, drawn("path", { class: "start", d: "M0 0L-11 -7V7Z" }))),
        block.ends.map(point => mark(point, unit, drawn("path", { class: "end", d: "M0 -5h10v10h-10Z" }))),
    ];
}

// The sides of the hoop about the middle of an extent, as it fits, or null where there is none.
function hoopAround([left, top, right, low], hoop) {
    if (!hoop) return null;
    const { fits, isTurned } = fitOf([right - left, low - top], hoop), [width, height] = isTurned ? hoop.toReversed() : hoop;
    return { x: (left + right - width) / 2, y: (top + low - height) / 2, width, height, class: fits ? "hoop" : "hoop over" };
}

// The picture of a drawing as the worker read it. `marks` is the group for what is chosen, and `unit` the size of its units.
export function drawingPicture({ blocks, begins, extent }, hoop) {
    const frame = hoopAround(extent, hoop), outer = frame ? [Math.min(extent[0], frame.x), Math.min(extent[1], frame.y),
        Math.max(extent[2], frame.x + frame.width), Math.max(extent[3], frame.y + frame.height)] : extent;
    const [left, top, right, low] = outer, size = Math.max(right - left, low - top, 10), unit = size / 480, edge = 26 * unit;
    const marks = drawn("g", {}), svg = drawn("svg", { class: "drawn", role: "img", "aria-label": text("drawing.picture",
        { pieces: begins.length }), viewBox: `${left - edge} ${top - edge} ${right - left + 2 * edge} ${low - top + 2 * edge}` },
    frame && drawn("rect", frame), blocks.map(block => blockParts(block, unit)), begins.slice(0, NUMBERED).map((point, k) => mark(point, unit, number(k + 1))), marks);
    return { svg, marks, unit };
}

// Rings at places, or at the point that is chosen.
export function rings(points, unit, kind) {
    return points.map(point => mark(point, unit, drawn("circle", { class: kind, r: 8 })));
}

// The index of the listed point that is nearest to a place of the picture, in its own units.
export function nearestPoint(points, svg, clientX, clientY) {
    const place = new DOMPoint(clientX, clientY).matrixTransform(svg.getScreenCTM().inverse());
    let found = 0, least = Infinity;
    for (let k = 0; 2 * k < points.length; k++) {
        const far = Math.hypot(points[2 * k] - place.x, points[2 * k + 1] - place.y);
        if (far < least) [found, least] = [k, far];
    }
    return found;
}
