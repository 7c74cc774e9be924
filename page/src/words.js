// What the programs print, in the words and the millimetres of the page.
import { mm } from "./elements.js";
import { text } from "./texts.js";

// What commands print when they are done. Names that begin with `mm` are lengths.
const SAID = {
    meet: /^(?:moved (?<moved>\d+)|crossings (?<crossings>\d+)) listed (?<listed>\d+) dropped (?<dropped>\d+) left (?<left>\d+) pieces (?<from>\d+) to (?<to>\d+)$/,
    space: /^points (?<points>\d+) to (?<fewer>\d+) stitches (?<from>\d+) to (?<to>\d+) shortest (?<mmA>\d+) to (?<mmB>\d+) longest (?<mmC>\d+) to (?<mmD>\d+) pieces \d+$/,
    free: /^penetrations (?<from>\d+) to (?<to>\d+) pieces \d+$/,
    near: /^travel (?<mmA>\d+) to (?<mmB>\d+) pieces \d+$/,
    cut: /^lines (?<lines>\d+) pieces (?<pieces>\d+) cost \d+$/,
    design: /^needles (?<needles>\d+) trims (?<trims>\d+) stops (?<stops>\d+)$/,
    size: /^size (?<mmA>\d+) (?<mmB>\d+)$/,
    extent: /^extent (?<mmA>-?\d+) (?<mmB>-?\d+) (?<mmC>-?\d+) (?<mmD>-?\d+)$/,
    "fits upright": /^fits upright$/, "fits turned": /^fits turned$/,
};

// What is wrong with a drawing, a design or an edit. What isn't here is shown as the programs print it.
const REFUSED = {
    noJunction: /^edit \d+: not a junction$/,
    twoBlocks: /^edit \d+: two blocks list the point$/,
    samePiece: /^edit \d+: both pieces are one$/,
    otherBlock: /^edit \d+: pieces in different blocks$/,
    noPiece: /^edit \d+: (?:no piece (?<number>\d+)|piece (?<other>\d+) .*)$/,
    migrate: /^redwork 1 can't be kept: migrate it first$/,
    tooLarge: /^too large by (?<mmA>\d+) (?<mmB>\d+)$/,
    tooLong: /^command (?<at>\d+): stitch longer than (?<mmA>\d+)$/,
    line: /^line (?<at>\d+): (?<what>.*)$/,
    differs: /^no: act (?<at>\d+) differs$/,
};

// A number of the form's groups as the page writes it.
function inUnits(groups = {}) {
    return Object.fromEntries(Object.entries(groups).map(([name, value]) => [name, name.startsWith("mm") ? mm(Number(value)) : value]));
}

// The text of the first form that a line has, or null. The key of a text is made of the form's name.
function formed(forms, keyOf, line) {
    for (const [name, form] of Object.entries(forms)) {
        const found = form.exec(line);
        if (found) return text(keyOf(name), inUnits(found.groups));
    }
    return null;
}

// What a command printed, in words: its last line, and those that no form has.
export function saidOf(out) {
    const lines = out.trim().split("\n");
    return lines.map((line, k) => formed(SAID, name => `said.${name}`, line) ?? (k === lines.length - 1 ? line : null)).filter(Boolean).join("\n");
}

// Why a program refused, in words.
export function refusalOf(err) {
    const line = err.trim().replace(/^stitch\w*: /, ""), part = line.replace(/^.*?\.(?:rw|pes|cert|dst|exp|pec|lst|svg): /i, "");
    return formed(REFUSED, name => `refused.${name}`, part) ?? part.replace(/\b(needle|float) (-?\d+) (-?\d+)/g, (_, kind, x, y) =>
        `${kind} ${mm(Number(x))} ${mm(Number(y))} mm`);
}
