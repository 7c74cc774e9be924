// The lines of a path of SVG, in its own units: lists of pieces, each two points or the four of a cubic curve.
import { Refused } from "./refused.js";
import { NUMBER } from "./svg_style.js";

// The numbers (n) and flags (f) after each letter of a path.
const COMMANDS = { m: "nn", z: "", l: "nn", h: "n", v: "n", c: "nnnnnn", s: "nnnn", q: "nnnn", t: "nn", a: "nnnffnn" };
const WORDS = { n: new RegExp(NUMBER, "y"), f: /[01]/y };
const GAP = /[ \t\r\n\f,]*/y;

// The commands of a path: a letter and its numbers. The first fault is refused with its character.
function commandsOf(path) {
    const commands = [];
    let at = 0, letter = "";
    const pass = word => {
        word.lastIndex = at;
        const found = word.exec(path);
        at += found ? found[0].length : 0;
        return found && found[0];
    };
    while (pass(GAP) !== null && at < path.length) {
        if ("mzlhvcsqtaMZLHVCSQTA".includes(path[at])) letter = path[at++];
        else if (letter.toLowerCase() === "z") letter = "";
        else if (letter.toLowerCase() === "m") letter = letter === "m" ? "l" : "L";
        const kind = letter.toLowerCase(), numbers = [];
        for (const form of commands.length || kind === "m" ? COMMANDS[kind] ?? "?" : "?") {
            pass(GAP);
            const word = form === "?" ? null : pass(WORDS[form]);
            if (word === null) throw new Refused("svg.path", { at: at + 1, found: path.slice(at, at + 12) });
            numbers.push(Number(word));
        }
        commands.push([letter, numbers]);
    }
    return commands;
}

// The angle from one vector to another.
function angle(ux, uy, vx, vy) {
    return Math.atan2(ux * vy - uy * vx, ux * vx + uy * vy);
}

// The cubic curves of an elliptic arc, at most a 32nd of a turn each.
function arcCurves([x1, y1], [rx, ry, degrees, large, sweep, x2, y2]) {
    [rx, ry] = [Math.abs(rx), Math.abs(ry)];
    if (!rx || !ry || x1 === x2 && y1 === y2) return [[[x1, y1], [x2, y2]]];
    const turn = degrees * Math.PI / 180, cos = Math.cos(turn), sin = Math.sin(turn);
    const [dx, dy] = [(x1 - x2) / 2, (y1 - y2) / 2], [px, py] = [cos * dx + sin * dy, cos * dy - sin * dx];
    const over = Math.sqrt(Math.max(px * px / (rx * rx) + py * py / (ry * ry), 1));
    [rx, ry] = [rx * over, ry * over];
    const below = rx * rx * py * py + ry * ry * px * px;
    const far = (large === sweep ? -1 : 1) * Math.sqrt(Math.max((rx * rx * ry * ry - below) / below, 0));
    const [qx, qy] = [far * rx * py / ry, -far * ry * px / rx];
    const centre = [cos * qx - sin * qy + (x1 + x2) / 2, sin * qx + cos * qy + (y1 + y2) / 2];
    const start = angle(1, 0, (px - qx) / rx, (py - qy) / ry);
    let all = angle((px - qx) / rx, (py - qy) / ry, (-px - qx) / rx, (-py - qy) / ry);
    if (sweep && all < 0) all += 2 * Math.PI;
    if (!sweep && all > 0) all -= 2 * Math.PI;
    return ellipseCurves({ centre, rx, ry, cos, sin, start, all, from: [x1, y1], to: [x2, y2] });
}

// The cubic curves of a part of an ellipse.
function ellipseCurves({ centre, rx, ry, cos, sin, start, all, from, to }) {
    const count = Math.ceil(Math.abs(all) / (Math.PI / 16) - 1e-6), part = all / count, curves = [];
    const alpha = Math.sin(part) * (Math.sqrt(4 + 3 * Math.tan(part / 2) ** 2) - 1) / 3;
    const point = t => [centre[0] + rx * Math.cos(t) * cos - ry * Math.sin(t) * sin,
        centre[1] + rx * Math.cos(t) * sin + ry * Math.sin(t) * cos];
    const along = t => [-rx * cos * Math.sin(t) - ry * sin * Math.cos(t), -rx * sin * Math.sin(t) + ry * cos * Math.cos(t)];
    for (let k = 0, a = from; k < count; k++) {
        const [t, u] = [start + k * part, start + (k + 1) * part], [s, e] = [along(t), along(u)];
        const d = k === count - 1 ? to : point(u);
        curves.push([a, [a[0] + alpha * s[0], a[1] + alpha * s[1]], [d[0] - alpha * e[0], d[1] - alpha * e[1]], d]);
        a = d;
    }
    return curves.length ? curves : [[from, to]];
}

// The lines of a path.
export function linesOf(path) {
    const lines = [];
    let at = [0, 0], first = at, going = false, mirrored = null, before = "";
    for (const [letter, given] of commandsOf(path)) {
        const kind = letter.toLowerCase(), base = letter === kind ? at : [0, 0];
        const n = kind === "a" ? [...given.slice(0, 5), given[5] + base[0], given[6] + base[1]]
            : kind === "h" ? [given[0] + base[0]] : kind === "v" ? [given[0] + base[1]] : given.map((one, k) => one + base[k % 2]);
        if (kind === "m") {
            [at, going, before] = [[n[0], n[1]], false, kind];
            first = at;
            continue;
        }
        const smooth = (kind === "s" ? "cs" : "qt").includes(before) && mirrored ? mirrored : at;
        const [pieces, control] = piecesOf(kind, n, at, first, smooth);
        if (!going) lines.push([]);
        lines.at(-1).push(...pieces);
        at = pieces.at(-1).at(-1);
        mirrored = control && [2 * at[0] - control[0], 2 * at[1] - control[1]];
        [going, before] = [kind !== "z", kind];
    }
    return lines;
}

// The pieces of a command from a point, and the last control point of a curve that may be mirrored.
function piecesOf(kind, n, at, first, smooth) {
    if (kind === "z") return [[[at, first]], null];
    if (kind === "h") return [[[at, [n[0], at[1]]]], null];
    if (kind === "v") return [[[at, [at[0], n[0]]]], null];
    if (kind === "l") return [[[at, [n[0], n[1]]]], null];
    if (kind === "a") return [arcCurves(at, n), null];
    if (kind === "c") return [[[at, [n[0], n[1]], [n[2], n[3]], [n[4], n[5]]]], [n[2], n[3]]];
    if (kind === "s") return [[[at, smooth, [n[0], n[1]], [n[2], n[3]]]], [n[0], n[1]]];
    const [control, end] = kind === "q" ? [[n[0], n[1]], [n[2], n[3]]] : [smooth, [n[0], n[1]]];
    const third = (one, other) => [(one[0] + 2 * other[0]) / 3, (one[1] + 2 * other[1]) / 3];
    return [[[at, third(at, control), third(end, control), end]], control];
}
