// The whole points of lines: straight pieces by their ends, curves by points that are near enough and close enough.
// Lengths are tenths of a millimetre. The rules are those of python/stitch/svg/drawing.py.
import { Refused } from "./refused.js";

// The greatest distance of a curve from its samples.
const SAMPLED = 0.04;
export const MAX_POINTS = 65536;
const far = (a, b) => Math.hypot(b[0] - a[0], b[1] - a[1]);
const mix = (a, b, t) => [a[0] + t * (b[0] - a[0]), a[1] + t * (b[1] - a[1])];

// The two parts of a cubic curve.
function cutAt([a, b, c, d], t) {
    const ab = mix(a, b, t), bc = mix(b, c, t), cd = mix(c, d, t), abc = mix(ab, bc, t), bcd = mix(bc, cd, t);
    const middle = mix(abc, bcd, t);
    return [[a, ab, abc, middle], [middle, bcd, cd, d]];
}

// Where a cubic polynomial, given by its four Bezier numbers, turns between 0 and 1.
function turns([p, q, r, s]) {
    const a = s - 3 * r + 3 * q - p, b = 2 * (r - 2 * q + p), c = q - p;
    const root = Math.sqrt(Math.max(b * b - 4 * a * c, 0)), under = -(b + (b < 0 || Object.is(b, -0) ? -root : root)) / 2;
    return [a ? under / a : 0, under ? c / under : 0].filter(t => t > 1e-6 && t < 1 - 1e-6);
}

// The pieces of a line with its curves cut where x or y turns, at the points that are wanted.
export function atExtremes(pieces, isWanted = () => true) {
    const made = [];
    for (let piece of pieces) {
        const places = piece.length === 4 ? [0, 1].flatMap(axis => turns(piece.map(point => point[axis]))) : [];
        let done = 0;
        for (const t of [...new Set(places)].sort((one, other) => one - other)) {
            const [first, rest] = cutAt(piece, (t - done) / (1 - done));
            if (!isWanted(rest[0])) continue;
            made.push(first);
            [piece, done] = [rest, t];
        }
        made.push(piece);
    }
    return made;
}

// The left, upper, right and lower side of lines that are one upright rectangle, or null.
export function sidesOf(lines) {
    const [line, ...more] = lines, isSame = (a, b) => a[0] === b[0] && a[1] === b[1];
    if (!line || more.length || line.some(piece => piece.length > 2)) return null;
    const corners = line.filter(([a, b]) => !isSame(a, b)).map(([a]) => a), last = line.at(-1)[1];
    if (!isSame(last, line[0][0])) corners.push(last);
    const [xs, ys] = [0, 1].map(axis => [...new Set(corners.map(corner => corner[axis]))].sort((one, other) => one - other));
    const isSlanted = corners.some((b, k) => k && corners[k - 1][0] !== b[0] && corners[k - 1][1] !== b[1]);
    const isOne = corners.length === 4 && new Set(corners.map(corner => corner.join())).size === 4 && xs.length === 2 && ys.length === 2;
    return isOne && !isSlanted ? [xs[0], ys[0], xs[1], ys[1]] : null;
}

// The nearest whole numbers. What differs by less than a millionth rounds alike, so that clones meet.
export function rounded(point) {
    return point.map(part => Math.floor(Number(part.toFixed(6)) + 0.5));
}

// Points of a cubic curve, half a tenth of a millimetre apart at most; the curve is within SAMPLED of their chords.
function samples([a, b, c, d]) {
    const bent = (p, q, r) => Math.hypot(p[0] - 2 * q[0] + r[0], p[1] - 2 * q[1] + r[1]);
    const speed = 6 * Math.max(far(a, b), far(b, c), far(c, d)), bend = 6 * Math.max(bent(a, b, c), bent(b, c, d));
    const count = Math.max(1, Math.ceil(speed), Math.ceil(Math.sqrt(bend / 8 / SAMPLED)));
    const points = [a];
    for (let k = 1; k < count; k++) {
        const t = k / count, u = 1 - t;
        points.push([0, 1].map(axis => u * u * u * a[axis] + 3 * u * u * t * b[axis] + 3 * u * t * t * c[axis] + t * t * t * d[axis]));
    }
    points.push(d);
    return points;
}

// The distance of a point from the segment of two others.
function beside(point, a, b) {
    const [x, y, px, py] = [b[0] - a[0], b[1] - a[1], point[0] - a[0], point[1] - a[1]], whole = x * x + y * y;
    const part = whole ? Math.min(Math.max((px * x + py * y) / whole, 0), 1) : 0;
    return Math.hypot(px - part * x, py - part * y);
}

// The first index at which a list of growing numbers has at least a value.
function indexOf(list, value) {
    let low = 0, high = list.length;
    while (low < high) {
        const middle = (low + high) >> 1;
        if (list[middle] < value) low = middle + 1;
        else high = middle;
    }
    return low;
}

// The points of a curve after its first: as few as fit, spaced evenly, and closer at a sharp bend.
function curvePoints(curve, within, apart) {
    const passed = samples(curve), last = passed.length - 1, way = [0];
    for (let k = 1; k <= last; k++) way.push(way[k - 1] + far(passed[k - 1], passed[k]));
    const fits = (first, end) => {
        const a = rounded(passed[first]), b = rounded(passed[end]);
        return end - first < 2
            || far(a, b) <= apart && passed.slice(first + 1, end).every(one => beside(one, a, b) <= within - SAMPLED);
    };
    const cut = (first, end) => {
        const middle = (first + end) >> 1;
        return fits(first, end) ? [end] : [...cut(first, middle), ...cut(middle, end)];
    };
    const least = Math.max(1, Math.ceil(way[last] / apart));
    let count = least;
    const pick = k => k < count ? indexOf(way, way[last] * k / count - 1e-6) : last;
    const parts = () => Array.from({ length: count }, (_, k) => [pick(k), pick(k + 1)]);
    while (count < least + Math.floor(least / 4) + 2 && !parts().every(([first, end]) => fits(first, end))) {
        count += 1 + Math.floor(count / 1000);
    }
    return parts().flatMap(([first, end]) => cut(first, end)).map(at => rounded(passed[at]));
}

// The whole points of a line, no two neighbours alike.
export function pointsOf(pieces, within, apart) {
    const points = [rounded(pieces[0][0])];
    for (const piece of pieces) {
        for (const point of piece.length === 4 ? curvePoints(piece, within, apart) : [rounded(piece[1])]) {
            const before = points.at(-1);
            if (point[0] !== before[0] || point[1] !== before[1]) points.push(point);
        }
        if (points.length > MAX_POINTS) throw new Refused("svg.points", { most: MAX_POINTS });
    }
    return points;
}
