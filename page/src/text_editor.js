// A field for the text of a drawing, with the numbers of its lines, and a mark at the line that is refused.
import { fill, make } from "./elements.js";
import { text } from "./texts.js";

// Milliseconds after the last key before the text is read.
const PATIENCE = 400;

export function textEditor(changed) {
    const area = make("textarea", { wrap: "off", spellcheck: "false", autocomplete: "off", autocapitalize: "off",
        "aria-label": text("drawing.text"), rows: "14" });
    const gutter = make("div", { class: "gutter", "aria-hidden": "true" }), band = make("div", { class: "band", hidden: true });
    let waiting = null, marked = null, chosen = null, shown = null;
    const rows = () => area.value.split("\n").length;
    const lineHeight = () => parseFloat(getComputedStyle(area).lineHeight);
    const number = () => {
        if (gutter.dataset.rows === String(rows()) && gutter.dataset.marked === String(marked)) return;
        [gutter.dataset.marked, gutter.dataset.rows] = [String(marked), String(rows())];
        const numbers = Array.from({ length: rows() }, (_, k) => k + 1), at = marked ? marked - 1 : numbers.length;
        const [above, below] = [numbers.slice(0, at), numbers.slice(at + 1)].map(list => list.map(count => `${count}\n`).join(""));
        fill(gutter, above, marked && make("span", { class: "wrong" }, marked), below && marked && "\n", below);
        follow();
    };
    const follow = () => {
        const at = marked ?? chosen;
        gutter.scrollTop = area.scrollTop;
        band.hidden = at === null;
        band.classList.toggle("place", marked === null);
        if (at !== null) band.style.top = `${(at - 1) * lineHeight() - area.scrollTop + parseFloat(getComputedStyle(area).paddingTop)}px`;
    };
    const goTo = line => {
        area.scrollTop = Math.max(0, (line - 3) * lineHeight());
        area.scrollLeft = 0;
        follow();
    };
    const read = () => {
        clearTimeout(waiting);
        waiting = null;
        changed(area.value);
    };
    area.addEventListener("scroll", follow);
    area.addEventListener("input", () => {
        number();
        clearTimeout(waiting);
        waiting = setTimeout(read, PATIENCE);
    });
    area.addEventListener("change", () => {
        if (waiting) read();
    });
    return {
        element: make("div", { class: "editor" }, gutter, make("div", { class: "sheet" }, band, area)),
        // Shows a text, unless it is the one that is being typed.
        show: words => {
            if (shown === words) return;
            if (area.value !== words) {
                [chosen, waiting] = [null, clearTimeout(waiting)];
                area.value = words;
            }
            shown = words;
            number();
        },
        // Marks the line that is refused, or none.
        mark: line => {
            const isNew = line !== null && line !== marked;
            marked = line;
            area.setAttribute("aria-invalid", line !== null);
            number();
            follow();
            if (isNew && document.activeElement !== area) goTo(line);
        },
        // Goes to a line of the drawing by its number among them.
        showDrawnLine: count => {
            const lines = area.value.split("\n");
            let left = count;
            const at = lines.findIndex(line => /^[ \t]*line[ \t]/.test(line) && --left === 0);
            if (at < 0) return;
            chosen = at + 1;
            goTo(chosen);
        },
    };
}
