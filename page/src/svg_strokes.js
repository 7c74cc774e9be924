// The visible strokes of an SVG file: their colours, and their lines in tenths of a millimetre.
//
// The browser reads the document, its selectors and the names of its colours. Numbers are read here, since a browser keeps
// those of shapes and points in single precision, and a clone has no elements. The rules are those of python/stitch/svg/strokes.py.
import { Refused } from "./refused.js";
import { linesOf } from "./svg_paths.js";
import { sidesOf } from "./svg_points.js";
import { INHERITED, NUMBER, isClear, isIllustrators, kindOf, number, painted, styleOf, styleRules } from "./svg_style.js";
import { text } from "./texts.js";

const XLINK = "http://www.w3.org/1999/xlink";
const INKSCAPE = "http://www.inkscape.org/namespaces/inkscape";
// Lengths of a unit in px, of which 96 are an inch.
const UNITS = { "": 1, px: 1, mm: 96 / 25.4, cm: 96 / 2.54, in: 96, pt: 4 / 3, pc: 16, q: 96 / 101.6 };
const words = list => new Set(list.split(" "));
// Elements that draw nothing where they stand.
const PASSED = words("defs symbol clipPath mask marker pattern linearGradient radialGradient meshgradient filter metadata "
    + "title desc style script font animate animateTransform animateMotion set view cursor solidcolor color-profile");
const GROUPS = words("svg g a switch symbol"), TEXTS = words("text flowRoot foreignObject");
const SHAPES = words("path rect circle ellipse line polyline polygon");
// The lengths of shapes: a percentage is of the width (x), of the height (y), or of the mean of both (r).
const LENGTHS = {
    rect: { x: "x", y: "y", width: "x", height: "y", rx: "x", ry: "y" }, circle: { cx: "x", cy: "y", r: "r" },
    ellipse: { cx: "x", cy: "y", rx: "x", ry: "y" }, line: { x1: "x", y1: "y", x2: "x", y2: "y" },
};
const TRANSFORMS = { matrix: [6], translate: [1, 2], scale: [1, 2], rotate: [1, 3], skewX: [1], skewY: [1] };
// The ids of the layers that the extension of Inkscape shows results on.
const SHOWN = words("redwork-look redwork-route");
// The greatest number of elements, each counted as often as it is cloned.
const ELEMENTS = 20000;
// The greatest number of groups in one another.
const DEPTH = 900;
// Milliseconds after which the browser has a turn.
const TURN = 12;

// Affine maps a b c d e f of points: x becomes a x + c y + e, and y becomes b x + d y + f.
const SAME = [1, 0, 0, 1, 0, 0];
const of = ([a, b, c, d, e, f], x, y) => [a * x + c * y + e, b * x + d * y + f];
const moveBy = (x, y) => [1, 0, 0, 1, x, y];

// A map followed by another.
function then(map, outer) {
    const [[e, f], [a, b], [c, d]] = [of(outer, map[4], map[5]), of(outer, map[0], map[1]), of(outer, map[2], map[3])];
    return [a - outer[4], b - outer[5], c - outer[4], d - outer[5], e, f];
}

// A text as printable ASCII with single spaces.
export function plain(words) {
    const ascii = words.normalize("NFKD").replace(/[^\x00-\x7f]/g, "");
    return ascii.replace(/[^ -~]/g, " ").split(" ").filter(Boolean).join(" ");
}

// A length in an element's own units; a percentage is of `whole`, which is null where it isn't known.
function lengthOf(name, given, whole) {
    const found = new RegExp(`^\\s*(${NUMBER})\\s*([a-zA-Z]*|%)\\s*$`).exec(given);
    if (!found || !Object.hasOwn(UNITS, found[2].toLowerCase()) && found[2] !== "%") {
        throw new Refused("svg.length", { name, given });
    }
    if (found[2] === "%" && whole === null) throw new Refused("svg.part", { name, given });
    const length = Number(found[1]) * (found[2] === "%" ? whole / 100 : UNITS[found[2].toLowerCase()]);
    if (!(Math.abs(length) < 1e9)) throw new Refused("svg.large");
    return length;
}

// The map of one call of a transform.
function callMap(name, n) {
    const turn = n[0] * Math.PI / 180;
    if (name === "matrix") return n;
    if (name === "translate") return moveBy(n[0], n[1] ?? 0);
    if (name === "scale") return [n[0], 0, 0, n[1] ?? n[0], 0, 0];
    if (name === "skewX") return [1, 0, Math.tan(turn), 1, 0, 0];
    if (name === "skewY") return [1, Math.tan(turn), 0, 1, 0, 0];
    const [cos, sin, x, y] = [Math.cos(turn), Math.sin(turn), n[1] ?? 0, n[2] ?? 0];
    return [cos, sin, -sin, cos, sin * y - cos * x + x, y - sin * x - cos * y];
}

// The map of a transform, whose first call is the outermost.
function transformOf(list) {
    let map = SAME;
    for (const call of list.trim().split(/(?<=\))[\s,]*/).filter(Boolean)) {
        const found = /^([a-zA-Z]+)\s*\(([^()%]*)\)$/.exec(call);
        const numbers = found ? found[2].trim().split(/\s*,\s*|\s+/).map(number) : [];
        if (!found || !TRANSFORMS[found[1]]?.includes(numbers.length) || numbers.includes(null)) {
            throw new Refused("svg.transform", { call });
        }
        map = then(callMap(found[1], numbers), map);
    }
    return map;
}

// The numbers of a viewBox, or null.
function viewBox(element) {
    const given = element.getAttribute("viewBox") ?? "", parts = given.replaceAll(",", " ").split(/\s+/).filter(Boolean);
    if (!parts.length) return null;
    const box = parts.filter(word => !word.includes("%")).map(number);
    if (box.length !== 4 || box.includes(null) || Math.min(box[2], box[3]) <= 0) throw new Refused("svg.viewBox", { given });
    return box;
}

// The map that brings a viewBox into a rectangle.
function fitted(element, x, y, width, height, box) {
    const given = element.getAttribute("preserveAspectRatio") ?? "";
    const aspect = /^\s*(none|x(M..)Y(M..))(?:\s+(meet|slice))?\s*$/.exec(given);
    const [, form, across, down, by] = aspect ?? ["", "", "Mid", "Mid", "meet"];
    let right = width / box[2], low = height / box[3];
    if (form !== "none") right = low = by === "slice" ? Math.max(right, low) : Math.min(right, low);
    const part = { Min: 0, Max: 1 };
    return [right, 0, 0, low, x - box[0] * right + (part[across] ?? 0.5) * (width - box[2] * right),
        y - box[1] * low + (part[down] ?? 0.5) * (height - box[3] * low)];
}

// The path of a rectangle; a radius that isn't given is null.
function rectangle({ x, y, width, height, rx, ry }) {
    [rx, ry] = [Math.min((rx ?? ry) || 0, width / 2), Math.min((ry ?? rx) || 0, height / 2)];
    if (Math.min(width, height, rx, ry) < 0) throw new Refused("svg.negative");
    if (!width || !height) return "";
    const right = x + width, low = y + height;
    if (!rx || !ry) return `M${x},${y} H${right} V${low} H${x} z`;
    const arc = `A${rx},${ry} 0 0 1`;
    return `M${x + rx},${y} H${right - rx} ${arc} ${right},${y + ry} V${low - ry} ${arc} ${right - rx},${low} `
        + `H${x + rx} ${arc} ${x},${low - ry} V${y + ry} ${arc} ${x + rx},${y} z`;
}

// The path of an ellipse.
function ellipse(x, y, rx, ry) {
    if (Math.min(rx, ry) < 0) throw new Refused("svg.radius");
    const ends = [[x, y + ry], [x - rx, y], [x, y - ry], [x + rx, y]];
    return rx && ry ? `M${x + rx},${y} ` + ends.map(([a, b]) => `A${rx},${ry} 0 0 1 ${a},${b} `).join("") + "z" : "";
}

// The path of a shape, in its own units.
function shapePath(kind, element, size) {
    const whole = { x: size[0], y: size[1], r: size.includes(null) ? null : Math.hypot(...size) / Math.SQRT2 };
    const at = {};
    for (const [name, axis] of Object.entries(LENGTHS[kind] ?? {})) {
        const given = element.getAttribute(name);
        const isAuto = kind === "rect" && (given ?? (name[0] === "r" ? "auto" : "0")).trim() === "auto";
        at[name] = isAuto ? null : lengthOf(name, given ?? "0", whole[axis]);
    }
    if (kind === "rect") return rectangle(at);
    if (kind === "circle" || kind === "ellipse") return ellipse(at.cx, at.cy, at.r ?? at.rx, at.r ?? at.ry);
    if (kind === "line") return `M${at.x1},${at.y1} ${at.x2},${at.y2}`;
    const points = (element.getAttribute("points") ?? "").trim();
    if (kind === "path") return element.getAttribute("d") ?? "";
    return points && `M${points}${kind === "polygon" ? "z" : ""}`;
}

// The root of a document.
export function parseSvg(source) {
    const found = new DOMParser().parseFromString(source, "image/svg+xml");
    const fault = found.getElementsByTagName("parsererror")[0];
    if (fault) throw new Refused("svg.xml", { why: plain(fault.textContent).replace(/^.*?error on/, "error on").slice(0, 120) });
    if (kindOf(found.documentElement) !== "svg") throw new Refused("svg.notSvg");
    return found.documentElement;
}

// The title of a document as a label of at most 16 bytes without spaces.
function titleOf(root) {
    const title = [...root.children].find(child => kindOf(child) === "title");
    return plain(title?.textContent ?? "").replaceAll(" ", "-").slice(0, 16).replace(/-+$/, "");
}

// Gives the browser a turn.
const breath = () => new Promise(resolve => {
    const { port1, port2 } = new MessageChannel();
    port1.onmessage = () => resolve(port1.close());
    port2.postMessage(null);
});

// Collects the visible strokes of a document, counts what is left out, and lists what isn't a line, in the order of the document.
// `isReleased` reads what is clipped or masked as if it weren't, and `isPlain` leaves the style sheets out.
export class Reader {
    constructor(root, source, { isReleased = false, isPlain = false } = {}) {
        const units = (root.getAttribute("width") ?? "") + (root.getAttribute("height") ?? "");
        Object.assign(this, { root, isReleased, isPlain, byId: new Map(), entries: [], notes: [], visits: 0, title: titleOf(root), page: null,
            isTraced: [...root.getElementsByTagName("metadata")].some(notes => notes.textContent.includes("potrace")),
            isInPoints: isIllustrators(source) && !/mm|cm|in|p[tc]|q/i.test(units) });
    }

    // Reads the document, in turns with all else that the page does.
    async read() {
        const { root, byId } = this;
        for (const element of root.querySelectorAll("[id]")) {
            if (!byId.has(element.getAttribute("id"))) byId.set(element.getAttribute("id"), element);
        }
        if (root.hasAttribute("id")) byId.set(root.getAttribute("id"), root);
        this.rules = this.isPlain ? [] : styleRules(root);
        if (this.isInPoints) this.notes.push(text("svg.points72"));
        const around = { map: this.isInPoints ? [96 / 72, 0, 0, 96 / 72, 0, 0] : SAME, style: { ...INHERITED }, size: [null, null],
            leftOut: "", uses: [], labels: [], clips: [], depth: 0 };
        const waiting = [[root, around, null]];
        for (let since = performance.now(); waiting.length;) {
            if (performance.now() - since > TURN) {
                await breath();
                since = performance.now();
            }
            for (const next of this.visit(...waiting.pop()).reverse()) waiting.push(next);
        }
        return { entries: this.entries, notes: this.notes, title: this.title };
    }

    leave(what) {
        this.entries.push({ leave: what });
    }

    // Reads an element, and returns those to be read next, each with its place. A clone is the `use` that refers to the element.
    visit(element, around, clone) {
        const kind = kindOf(element), id = element.getAttribute("id");
        if (++this.visits > ELEMENTS) throw new Refused("svg.elements", { most: ELEMENTS });
        if (around.depth > DEPTH) throw new Refused("svg.tooDeep");
        if (!kind || SHOWN.has(id) || PASSED.has(kind) && !(kind === "symbol" && clone)) return [];
        const name = `${kind} ${id === null ? text("svg.withoutId") : `'${id}'`}`;
        try {
            const place = { ...this.inside(kind, element, around, clone, name), depth: around.depth + 1 };
            if (GROUPS.has(kind)) return this.shownChildren(kind, element).map(child => [child, place, null]);
            if (place.leftOut || ["hidden", "collapse"].includes(place.style.visibility)) this.leave(place.leftOut || "hidden");
            else if (kind === "use") return [this.cloned(element, place)];
            else this.visitLeaf(kind, element, place, name);
        } catch (why) {
            if (!(why instanceof Refused)) throw why;
            this.entries.push({ name, fault: why.key, words: why.message });
        }
        return [];
    }

    // The children of a group that are shown.
    shownChildren(kind, element) {
        const children = [...element.children].filter(child => kindOf(child) && !(kind === "switch"
            && (child.getAttribute("requiredExtensions") || child.getAttribute("systemLanguage"))));
        return kind === "switch" ? children.slice(0, 1) : children;
    }

    // Reads an element that is no group and no clone, and is visible.
    visitLeaf(kind, element, place, name) {
        if (SHAPES.has(kind)) this.draw(kind, element, place, name);
        else if (kind === "image") throw new Refused("svg.image");
        else if (!TEXTS.has(kind)) throw new Refused("svg.noLine");
        else if (element.textContent.trim()) throw new Refused("svg.text");
    }

    // The place of an element's own shape, or of the elements in it.
    inside(kind, element, around, clone, name) {
        const style = styleOf(element, around.style, this.rules);
        const leftOut = around.leftOut || (style.display === "none" ? "hidden" : isClear(style.opacity) ? "transparent" : "");
        if (leftOut) return { ...around, style, leftOut };
        if (style.moves) throw new Refused("svg.moves", { property: style.moves });
        if (!this.isReleased && style.mask !== "none") throw new Refused("svg.clipped");
        const map = then(transformOf(element.getAttribute("transform") ?? ""), around.map);
        const clips = this.isReleased || style["clip-path"] === "none" ? around.clips
            : [...around.clips, { name, ...this.clipOf(style["clip-path"], map, around.size) }];
        const label = element.getAttributeNS(INKSCAPE, "label") || element.getAttribute("id");
        const labels = label && (SHAPES.has(kind) || kind === "use") ? [...around.labels, label] : around.labels;
        const place = { ...around, map, style, labels, clips };
        return kind === "svg" || kind === "symbol" ? this.viewport(element, place, clone) : place;
    }

    // The map and the sides of a clip that is one rectangle. Another is refused.
    clipOf(given, map, size) {
        const found = /^url\(\s*["']?#([^"')]*)["']?\s*\)$/.exec(given), around = found && this.byId.get(found[1]);
        const shapes = around ? [...around.children].filter(child => kindOf(child) && !PASSED.has(kindOf(child))) : [];
        if (shapes.length !== 1 || !SHAPES.has(kindOf(shapes[0])) || around.getAttribute("clipPathUnits") === "objectBoundingBox"
            || [around, ...shapes].some(one => styleOf(one, INHERITED, this.rules)["clip-path"] !== "none")) throw new Refused("svg.clipped");
        for (const one of [around, ...shapes]) map = then(transformOf(one.getAttribute("transform") ?? ""), map);
        const sides = sidesOf(linesOf(shapePath(kindOf(shapes[0]), shapes[0], size)));
        if (!sides) throw new Refused("svg.clipped");
        return { map, sides };
    }

    // Whether a path in the units of a map is a rectangle around the page.
    isBackground(path, map) {
        const px = sidesOf(linesOf(path).map(line => line.map(piece => piece.map(([x, y]) => of(map, x, y)))));
        if (!px || !this.page) return false;
        const { map: page, box: [x, y, width, height] } = this.page;
        const [[left, upper], [right, lower]] = [of(page, x, y), of(page, x + width, y + height)];
        return px[0] - 0.5 <= left && px[1] - 0.5 <= upper && right <= px[2] + 0.5 && lower <= px[3] + 0.5;
    }

    // The size of which the document's percentages are, in px. One side alone gives the other by the viewBox.
    pageSize(asked, box) {
        const given = Object.keys(asked).filter(name => !asked[name].includes("%"));
        if (!box) return [null, null];
        if (!given.length && !this.isInPoints) this.notes.push(text("svg.noSize"));
        let rate = 1;
        if (given.length === 1) {
            rate = lengthOf(given[0], asked[given[0]], null) / box[given[0] === "width" ? 2 : 3];
            for (const name of Object.keys(asked)) asked[name] = name === given[0] ? asked[name] : "100%";
        }
        return [rate * box[2], rate * box[3]];
    }

    // The place inside the document, an `svg` in it or a symbol, whose sides a clone may give.
    viewport(element, place, clone) {
        const box = viewBox(element), isOuter = element === this.root, asked = {};
        for (const name of ["width", "height"]) {
            const side = ((clone?.getAttribute(name) || element.getAttribute(name)) ?? "100%").trim();
            asked[name] = side === "auto" ? "100%" : side;
        }
        const whole = isOuter ? this.pageSize(asked, box) : place.size;
        const [x, y] = isOuter ? [0, 0] : ["x", "y"].map((name, k) => lengthOf(name, element.getAttribute(name) ?? "0", whole[k]));
        const sides = Object.keys(asked).map((name, k) =>
            whole[k] === null && asked[name].includes("%") ? null : lengthOf(name, asked[name], whole[k]));
        if (sides.some(side => side !== null && side <= 0)) throw new Refused("svg.noArea");
        if (!box) return { ...place, map: then(moveBy(x, y), place.map), size: sides };
        if (sides.includes(null)) throw new Refused("svg.sizeOfNone");
        const map = then(fitted(element, x, y, ...sides, box), place.map);
        if (isOuter) this.page = { map, box };
        return { ...place, map, size: box.slice(2) };
    }

    // What a `use` refers to, with its place.
    cloned(element, place) {
        const name = (element.getAttribute("href") ?? element.getAttributeNS(XLINK, "href") ?? "").trim();
        const target = name[0] === "#" && name.length > 1 ? this.byId.get(name.slice(1)) : undefined;
        if (!target) throw new Refused("svg.noTarget", { name });
        if (place.uses.includes(target)) throw new Refused("svg.cycle", { name });
        const [x, y] = ["x", "y"].map((axis, k) => lengthOf(axis, element.getAttribute(axis) ?? "0", place.size[k]));
        return [target, { ...place, map: then(moveBy(x, y), place.map), uses: [...place.uses, target] }, element];
    }

    // Adds a shape with the colour of its stroke. One with a fill alone isn't a line; its outline has the colour of the fill.
    draw(kind, element, place, name) {
        const { style, map } = place, stroke = isClear(style["stroke-width"].replace(/[px]+$/, "")) ? "transparent" : painted(style, "stroke");
        const shape = colour => ({ name, label: plain(place.labels.join("/")), colour, path: shapePath(kind, element, place.size), map,
            clips: place.clips });
        if (Array.isArray(stroke)) {
            this.entries.push(shape(stroke.join()));
            return;
        }
        // the outline, where it can be read: it is sewn if that is chosen
        const outline = colour => {
            try {
                return shape(colour);
            } catch (why) {
                if (!(why instanceof Refused)) throw why;
                return { name };
            }
        };
        const fill = kind === "line" ? null : style.fill.startsWith("url(") ? [0, 0, 0] : painted(style, "fill");
        const filled = Array.isArray(fill) && outline(fill.join());
        if (filled && filled.path && this.isBackground(filled.path, map)) this.leave("page");
        else if (filled) this.entries.push({ ...filled, fault: "svg.fill", words: text(this.isTraced ? "svg.outline" : "svg.fill") });
        else if (stroke) this.leave("transparent");
        else this.entries.push({ ...outline("0,0,0"), leave: "unstroked" });
    }
}

// The strokes of an SVG file's text, or why it can't be read.
export async function strokesOf(source, options = {}) {
    try {
        return await new Reader(parseSvg(source), source, options).read();
    } catch (why) {
        if (why instanceof Refused) return { refused: [{ key: why.key, words: why.message, values: why.values }] };
        throw why;
    }
}
