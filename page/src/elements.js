// Elements of the page, made with their attributes, listeners and children.
import { text } from "./texts.js";

const SVG = "http://www.w3.org/2000/svg";
let count = 0;

// Gives an element its attributes: functions are listeners, and true or false says whether an attribute is there.
function dressed(element, attributes, children) {
    for (const [name, value] of Object.entries(attributes)) {
        if (typeof value === "function") element.addEventListener(name, value);
        else if (name === "value") element.value = value;
        else if (value === true) element.setAttribute(name, "");
        else if (value !== false && value !== null && value !== undefined) element.setAttribute(name, value);
    }
    element.append(...children.flat(Infinity).filter(child => child !== null && child !== undefined && child !== false));
    return element;
}

export function make(tag, attributes = {}, ...children) {
    return dressed(document.createElement(tag), attributes, children);
}

export function drawn(tag, attributes = {}, ...children) {
    return dressed(document.createElementNS(SVG, tag), attributes, children);
}

// A button with a text of texts.json.
export function button(key, click, attributes = {}, values = {}) {
    return make("button", { type: "button", click, ...attributes }, text(key, values));
}

// A function that draws what it is given, unless it was given the same before: what is shown stays as it is, with its focus.
export function painter(draw) {
    let before = null;
    return (...given) => {
        if (before && before.length === given.length && given.every((part, k) => part === before[k])) return;
        before = given;
        draw(...given);
    };
}

// Shows words in an element for what was said, as a refusal where they are one.
export function say(element, words, isRefused = false) {
    element.textContent = words ?? "";
    element.classList.toggle("refused", isRefused);
}

// Sets the value of a control, unless someone types in it.
export function setValue(control, value) {
    if (document.activeElement !== control) control.value = value;
}

// A control with its label before it, and a unit after it.
export function field(key, control, unit = "") {
    control.id ||= `field-${++count}`;
    return make("span", { class: "field" }, make("label", { for: control.id }, text(key)), control,
        unit && make("span", { class: "unit" }, unit));
}

// A control with its label after it.
export function choice(key, control) {
    control.id ||= `field-${++count}`;
    return make("span", { class: "choice" }, control, make("label", { for: control.id }, text(key)));
}

// A place to choose a file at, with a line that says what is chosen or can be.
export function chooser(key, input, line, attributes = {}) {
    input.id ||= `field-${++count}`;
    return make("label", { class: "drop", for: input.id, ...attributes }, make("strong", {}, text(key)), line, input);
}

// The head of a view: its title, and where one goes on from it.
export function head(key, ...onward) {
    return make("div", { class: "title" }, make("h2", {}, text(key)), onward.length > 0 && make("div", { class: "onward" }, onward));
}

// A field for millimetres, whose value is tenths.
export function millimetres(tenths, attributes = {}) {
    return make("input", { type: "number", step: "0.1", inputmode: "decimal", value: tenths / 10, ...attributes });
}

// A square of a colour.
export function swatch(colour) {
    const square = make("span", { class: "swatch" });
    square.style.background = colour;
    return square;
}

// A menu of threads.
export function threadMenu(threads, attributes) {
    return menu(threads.map(({ number, name }) => [number, `${number} ${name}`]), attributes);
}

// The tenths of a field for millimetres.
export function tenthsOf(input) {
    return Math.round(Number(input.value) * 10);
}

// Tenths of a millimetre as millimetres.
export function mm(tenths) {
    return (tenths / 10).toFixed(1);
}

// A menu of values with their texts.
export function menu(options, attributes = {}) {
    const select = make("select", attributes, options.map(([value, words]) => make("option", { value }, words)));
    return select;
}

// Something that is made when it is opened, below its title.
export function folded(title, content) {
    const element = make("details", { toggle: () => {
        if (element.open && element.childElementCount === 1) element.append(content());
    } }, make("summary", {}, title));
    return element;
}

// So many rows of a table are shown.
const ROWS = 400;

// A table: the keys of its heads, and rows of texts and elements. The first column is text, the others are numbers.
export function table(heads, rows, attributes = {}) {
    return make("div", { class: "wide", tabindex: "0", role: "region", "aria-label": attributes.label },
        make("table", {}, make("thead", {}, make("tr", {}, heads.map(key => make("th", { scope: "col" }, text(key))))),
            make("tbody", {}, rows.slice(0, ROWS).map(row => make("tr", {}, row.map(cell => make("td", {}, cell))))),
            rows.length > ROWS && make("caption", {}, text("table.more", { count: ROWS, all: rows.length }))));
}

// Moves what a scrolled element shows so that one of those inside is in its middle; the page stays where it is.
export function centreIn(frame, element) {
    const [outer, inner] = [frame.getBoundingClientRect(), element.getBoundingClientRect()];
    frame.scrollBy((inner.left + inner.right - outer.left - outer.right) / 2, (inner.top + inner.bottom - outer.top - outer.bottom) / 2);
}

// What a control is called.
const nameOf = control => control.getAttribute("aria-label") ?? control.labels?.[0]?.textContent ?? control.textContent;

// Replaces what an element holds. A control that has the focus keeps it, where there is one again that is called the same.
export function fill(element, ...children) {
    const before = element.contains(document.activeElement) && element !== document.activeElement ? document.activeElement : null;
    const name = before && nameOf(before);
    element.replaceChildren(...children.flat(Infinity).filter(child => child !== null && child !== undefined && child !== false));
    const again = before && [...element.querySelectorAll(before.localName)].find(one => nameOf(one) === name);
    again?.focus({ preventScroll: true });
    return element;
}
