// The properties of the elements of an SVG file, from attributes, styles and style sheets, and their colours.
// The rules are those of python/stitch/svg/style.py.
import { Refused } from "./refused.js";

export const SVG = "http://www.w3.org/2000/svg";
export const NUMBER = "[-+]?[0-9]*\\.?[0-9]+(?:[eE][-+]?[0-9]+)?";

// Properties that are inherited, those that aren't, and those that would move a shape; with their first values.
export const INHERITED = {
    "stroke": "none", "stroke-opacity": "1", "stroke-width": "1", "fill": "black", "fill-opacity": "1",
    "visibility": "visible", "color": "black",
};
const OWN = { "display": "inline", "opacity": "1", "clip-path": "none", "mask": "none", "moves": "" };
const MOVING = new Set("transform translate rotate scale offset-path d x y cx cy r".split(" "));
const WORD = /^(?:>|(?:\*|[\p{L}\p{N}_-]+)?(?:[.#][\p{L}\p{N}_-]+)*)$/u;

// The name of an SVG element, and "" for elements of other vocabularies.
export function kindOf(element) {
    return [SVG, null].includes(element.namespaceURI) ? element.localName : "";
}

// Whether a document says, up to the end of its first tag, that Adobe Illustrator wrote it.
export function isIllustrators(source) {
    const begin = source.search(/<svg\b/), end = source.indexOf(">", begin);
    return begin >= 0 && /Adobe ?Illustrator/.test(source.slice(0, end));
}

// A number, or a percentage as a part of 1; null if it is neither.
export function number(word) {
    const found = new RegExp(`^\\s*(${NUMBER})\\s*(%?)\\s*$`).exec(word);
    return found && Number(found[1]) / (found[2] ? 100 : 1);
}

// Whether an opacity, or a width, is 0.
export function isClear(opacity) {
    const found = number(opacity);
    return found !== null && found <= 0;
}

// The list of CSS properties: for each whether it is important, its name and its value.
function declarations(list) {
    return list.split(";").map(part => {
        const [, name, rest] = /^([^:]*):?([^]*)$/.exec(part);
        const [, value, mark] = /^([^!]*)(!?)/.exec(rest);
        return [Boolean(mark) && rest.length > value.length + 1, name.trim().toLowerCase(), value.trim()];
    });
}

// The rank of a selector: the numbers of its ids, classes and tags.
function rankOf(selector, words) {
    const count = mark => selector.split(mark).length - 1;
    return [count("#"), count("."), words.filter(word => !".#*>".includes(word[0])).length];
}

// The rules of all style sheets: for each selector its text, its rank and its declarations.
export function styleRules(root) {
    const sheets = [root, ...root.getElementsByTagName("*")].filter(element => kindOf(element) === "style");
    const all = withoutComments(sheets.map(sheet => sheet.textContent).join("\n"))
        .replace(/<!--|-->|@(?:charset|namespace)[^;]*;|@font-face\s*\{[^{}]*\}/g, "");
    const rules = [], parts = all.split("}");
    if (parts.pop().trim()) throw new Refused("svg.sheet");
    for (const part of parts) {
        const [selectors, inside, ...more] = part.split("{");
        if (inside === undefined || more.length) throw new Refused("svg.sheet");
        for (const selector of selectors.split(",")) {
            const words = selector.replaceAll(">", " > ").split(/\s+/).filter(Boolean);
            if (!words.every(word => WORD.test(word)) || words.at(-1) === ">") {
                throw new Refused("svg.selector", { selector: selector.trim() });
            }
            rules.push({ selector: words.join(" "), rank: rankOf(selector, words), list: declarations(inside) });
        }
    }
    return rules;
}

// A style sheet without its comments.
function withoutComments(sheet) {
    let words = "", at = 0;
    for (let begin = sheet.indexOf("/*"); begin >= 0; begin = sheet.indexOf("/*", at)) {
        const end = sheet.indexOf("*/", begin + 2);
        if (end < 0) break;
        words += sheet.slice(at, begin);
        at = end + 2;
    }
    return words + sheet.slice(at);
}

// Whether a selector names an element; one that the browser can't read is refused.
function selects(selector, element) {
    try {
        return element.matches(selector);
    } catch {
        throw new Refused("svg.selector", { selector });
    }
}

// The order of two declarations: those that are important last, then by rank.
function byRank(one, other) {
    if (one[0] !== other[0]) return one[0] - other[0];
    const differing = one[1].findIndex((part, at) => part !== (other[1][at] ?? -1));
    return differing < 0 ? 0 : one[1][differing] - (other[1][differing] ?? -1);
}

// The properties of an element: from its attributes, style sheets and style, or from those around it.
export function styleOf(element, around, rules) {
    const attributes = [...Object.keys(INHERITED), ...Object.keys(OWN), "transform-origin"];
    const found = attributes.filter(name => element.getAttribute(name))
        .map(name => [false, [-1], name, element.getAttribute(name)]);
    for (const rule of rules) {
        if (rule.selector && !selects(rule.selector, element)) continue;
        found.push(...rule.list.map(([important, name, value]) => [important, rule.rank, name, value]));
    }
    found.push(...declarations(element.getAttribute("style") ?? "").map(([important, ...rest]) => [important, [9999], ...rest]));
    const style = { ...around, ...OWN };
    for (const [, , name, value] of found.sort(byRank)) {
        if (MOVING.has(name) && !["", "none"].includes(value) || name === "transform-origin" && element.getAttribute("transform")) {
            style.moves = name;
        } else if (Object.hasOwn(style, name) && value) {
            style[name] = ["inherit", "unset"].includes(value) ? around[name] ?? OWN[name] : value;
        }
    }
    return style;
}

// The colour of a call of rgb or hsl as red, green, blue and alpha, each 0 to 255; null if its words can't be read.
function functionColour(form, words) {
    const parts = words.map(word => number(word.replace("deg", "")));
    if (![3, 4].includes(parts.length) || parts.includes(null)) return null;
    const within = part => Math.min(Math.max(part, 0), 1);
    const alpha = parts[3] ?? 1;
    const three = form === "hsl" ? hslParts(parts[0] / 360, within(parts[1]), within(parts[2]))
        : parts.slice(0, 3).map((part, at) => words[at].includes("%") ? part : part / 255);
    return [...three, alpha].map(part => Math.floor(within(part) * 255 + 0.5));
}

// Red, green and blue, each 0 to 1, of a hue, a saturation and a lightness.
function hslParts(hue, saturation, lightness) {
    const most = lightness <= 0.5 ? lightness * (1 + saturation) : lightness + saturation - lightness * saturation;
    const least = 2 * lightness - most;
    return [hue + 1 / 3, hue, hue - 1 / 3].map(turn => {
        const part = turn - Math.floor(turn);
        if (part < 1 / 6) return least + (most - least) * 6 * part;
        if (part < 1 / 2) return most;
        return part < 2 / 3 ? least + (most - least) * (2 / 3 - part) * 6 : least;
    });
}

let pen = null;

// The colour of a name as the browser knows it, or null.
function namedColour(word) {
    if (!/^[a-z]+$/.test(word) || word === "currentcolor") return null;
    pen ??= document.createElement("canvas").getContext("2d");
    const seen = ["#010203", "#030201"].map(first => {
        pen.fillStyle = first;
        pen.fillStyle = word;
        return pen.fillStyle;
    });
    return seen[0] === seen[1] && seen[0][0] === "#" ? [...bytesOf(seen[0].slice(1)), 255] : null;
}

// The bytes of hexadecimal digits.
export function bytesOf(digits) {
    return digits.match(/../g).map(pair => parseInt(pair, 16));
}

// Red, green, blue and alpha, each 0 to 255, or null for no colour.
function colourOf(word) {
    const name = word.trim().toLowerCase();
    if (name === "none" || name === "transparent") return name === "none" ? null : [0, 0, 0, 0];
    const call = /^(rgb|hsl)a?\(([^()]*)\)$/.exec(name);
    const colour = call ? functionColour(call[1], call[2].trim().split(/\s*[,/]\s*|\s+/))
        : /^#(?:[0-9a-f]{3,4}|[0-9a-f]{6}|[0-9a-f]{8})$/.test(name)
            ? bytesOf((name.length > 5 ? name.slice(1) : name.slice(1).replace(/./g, "$&$&")).padEnd(8, "f"))
            : namedColour(name);
    if (!colour) throw new Refused(call ? "svg.badColour" : "svg.noColour", { colour: name.slice(0, 40) });
    return colour;
}

// The colour of a stroke or a fill, "transparent", or null.
export function painted(style, name) {
    const colour = colourOf(style[name].toLowerCase() === "currentcolor" ? style.color : style[name]);
    return colour && (!colour[3] || isClear(style[name + "-opacity"])) ? "transparent" : colour && colour.slice(0, 3);
}
