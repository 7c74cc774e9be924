// The hoop: chosen once, and shown wherever a pattern is.
import { button, field, fill, make, menu, millimetres, mm, painter, tenthsOf } from "./elements.js";
import { change, state } from "./state.js";
import { text } from "./texts.js";

// The sides of sewing fields that machines for the home and the shop have, in millimetres.
const SIDES = [[100, 100], [130, 180], [160, 260], [180, 300], [200, 200], [200, 300], [240, 240], [240, 360], [360, 360]];
const MOST = 6000;

// How a size fits a hoop, all in tenths: `fits` upright or turned by a quarter, and `by`, the greatest factor with which it does.
export function fitOf([width, height], [across, down]) {
    const factors = [[across, down], [down, across]].map(([x, y]) => Math.min(x / Math.max(width, 1), y / Math.max(height, 1)));
    return { fits: Math.max(...factors) >= 1, isTurned: factors[0] < 1 && factors[1] >= 1, by: Math.max(...factors) };
}

// The greatest width in tenths with which a size fits a hoop. It is a whole millimetre where that is a centimetre or more.
export function widthThatFits(size, hoop) {
    const width = Math.floor(size[0] * fitOf(size, hoop).by) - 1;
    return width >= 100 ? Math.floor(width / 10) * 10 : Math.max(width, 1);
}

// The control for the hoop: one of the sizes, or sides of one's own.
export function hoopControl() {
    const other = make("span", { class: "field", hidden: true }), sides = [0, 1].map(k => millimetres(1000, { min: "1", max: "600",
        "aria-label": text(["hoop.width", "hoop.height"][k]), change: () => change({ hoop: sides.map(side => Math.min(Math.max(tenthsOf(side),
            10), MOST)) }) }));
    const select = menu([["", text("hoop.none")], ...SIDES.map(pair => [pair.join(), text("hoop.size", { width: pair[0], height: pair[1] })]),
        ["own", text("hoop.own")]], { change: () => {
        isOwn = select.value === "own";
        if (isOwn) show();
        else change({ hoop: select.value ? select.value.split(",").map(side => 10 * side) : null });
    } });
    let isOwn = false;
    fill(other, sides[0], "×", sides[1], make("span", { class: "unit" }, "mm"));
    const paint = painter(hoop => {
        const known = hoop ? SIDES.find(pair => pair[0] * 10 === hoop[0] && pair[1] * 10 === hoop[1]) : null;
        select.value = isOwn || hoop && !known ? "own" : known ? known.join() : "";
        other.hidden = select.value !== "own";
        if (hoop) sides.forEach((side, k) => {
            if (document.activeElement !== side) side.value = hoop[k] / 10;
        });
    });
    const show = () => paint(state.hoop, isOwn);
    return { element: make("span", { class: "field" }, field("hoop.title", select), other), show };
}

// What to say of a size and the hoop: nothing where it fits or none is chosen, else the width that fits and a button that makes it so.
export function hoopAdvice(size, makeWide) {
    if (!state.hoop || !size || fitOf(size, state.hoop).fits) return null;
    const width = widthThatFits(size, state.hoop), [across, down] = state.hoop.map(mm);
    return make("p", { class: "warning", role: "alert" }, text("hoop.tooLarge", { width: mm(size[0]), height: mm(size[1]), across, down }), " ",
        makeWide && button("hoop.makeWide", () => makeWide(width), {}, { width: mm(width) }));
}
