// What `stitch_design look` says of a design, in words and millimetres.
import { make, mm } from "./elements.js";
import { text } from "./texts.js";
import { threadOf } from "./threads.js";

// Of each kind so many places are named.
const NAMED = 12;

// The places of a design that a shop would look at before it is sewn, by kind.
export function placesOf(report) {
    if (report.refused) return [make("p", { class: "refused" }, report.refused)];
    return report.kinds.length ? [make("ul", {}, report.kinds.map(({ what, count, items }) => make("li", {}, text(`place.${what}`, { count,
        least: mm(least(items)), most: mm(most(items)) }), make("span", { class: "hint" }, ` ${items.slice(0, NAMED).map(({ unit, at }) => unit
        ? text(`place.at.${unit}`, { at }) : "").filter(Boolean).join(", ")}${count > NAMED ? " .." : ""}`))))]
        : [make("p", {}, text("finish.noPlace"))];
}

const lengths = items => items.map(({ line }) => Number(/(\d+)(?: without a trim)?$/.exec(line)?.[1] ?? 0));
const least = items => Math.min(...lengths(items));
const most = items => Math.max(...lengths(items));

// The threads of a design, with their needles and lengths.
export function threadsOf(report) {
    return make("ul", { class: "plain" }, (report.blocks ?? []).map(({ thread, needles, length }, k) => {
        const square = make("span", { class: "swatch" }), { colour, name } = threadOf(Number(thread));
        square.style.background = colour;
        return make("li", {}, square, text("design.block", { block: k + 1, name, number: thread, needles, length: (length / 10000).toFixed(2) }));
    }));
}
