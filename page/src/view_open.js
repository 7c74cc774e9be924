// The view in which files are opened: what the page is for, drawings, SVG files with their size and threads, stitch files.
import { makeReady, open, openFiles, openNew, openOne, openSample } from "./actions.js";
import { button, chooser, field, fill, make, millimetres, painter, swatch, table, tenthsOf, threadMenu } from "./elements.js";
import { examples } from "./examples.js";
import { bytesOfText } from "./files.js";
import { hoopAdvice, hoopControl } from "./hoop.js";
import { drawn, known, state } from "./state.js";
import { makeWide, openSvg, readAgain } from "./svg_files.js";
import { text } from "./texts.js";
import { THREADS } from "./threads.js";

// What can be chosen beside a refusal: of each its name and the options of the reading, or a field for it.
const REMEDIES = {
    "svg.clipped": [["release", { isReleased: true }]], "svg.selector": [["plain", { isPlain: true }]], "svg.sheet": [["plain", { isPlain: true }]],
    "svg.fill": [["background", { skip: ["svg.fill"] }], ["outlines", { outlines: true }]], "svg.farAway": [["centre", { isCentred: true }]],
    "svg.points": ["width"], "svg.manyPoints": ["width"], "svg.tooWide": ["width"], "svg.manySteps": ["step", "width"],
    "svg.nothing": [["outlines", { outlines: true }]],
};

// Of a list so many things are shown.
const LISTED = 100;

// A picture of the page's own, with what it shows.
function shown(key) {
    const image = make("img", { alt: text(key) }), paint = painter(bytes => {
        URL.revokeObjectURL(image.src);
        image.src = bytes ? URL.createObjectURL(new Blob([bytes], { type: "image/svg+xml" })) : "";
        image.hidden = !bytes;
    });
    return { element: make("figure", {}, image, make("figcaption", {}, text(key))), paint };
}

export function openView() {
    const [said, card, offered] = [make("div", { role: "alert" }), make("div"), make("div")], hoop = hoopControl();
    const pictures = [shown("open.before"), shown("open.after")];
    const take = files => openFiles(files, openSvg);

    const paintRefusals = painter(refusals => fill(said, refusals.map(line => make("p", { class: "refused" }, line))));
    const paintOffered = painter(files => fill(offered, files.length > 0 && make("section", { class: "card" }, make("h3", {}, text("open.several")),
        make("div", { class: "chips" }, files.map(file => make("button", { type: "button", click: () => openOne(file, openSvg) }, file.name))))));

    // A field whose value, in tenths of a millimetre, is an option of the reading.
    const sizeField = (key, name, tenths, attributes, from = value => value) => {
        const input = millimetres(tenths, { ...attributes, change: () => readAgain({ [name]: from(tenthsOf(input)) }) });
        return field(key, input, "mm");
    };

    // What is refused of a file, with what can be chosen instead.
    const refusedCard = ({ file, options, refused, isSkippable }) => {
        const remedies = [...new Set(refused.flatMap(({ key }) => REMEDIES[key] ?? []))].map(one => {
            if (one === "step") return sizeField("svg.step", "step", options.step ?? 25, { min: "0.1", max: "204.7" });
            if (one === "width") return sizeField("svg.width", "width", options.width ?? 1000, { min: "1", max: "6000" });
            return button(`svg.${one[0]}`, () => readAgain(one[1]));
        });
        return make("section", { class: "card" }, make("h3", {}, text("svg.title", { name: file.name })),
            make("p", { class: "refused", role: "alert" }, text(isSkippable === undefined ? "svg.none" : "svg.refused")),
            make("ul", {}, refused.slice(0, LISTED).map(({ words }) => make("li", {}, words)), refused.length > LISTED && make("li", {},
                text("svg.more", { count: refused.length - LISTED }))),
            isSkippable === false && make("p", {}, text("svg.leavesNothing")),
            make("div", { class: "tools" }, remedies, isSkippable && button("svg.skip", () => readAgain({ skip: true }))));
    };

    // What was read of an SVG file: its size, its colours with their threads, and what was left out.
    const svgCard = ({ file, options, size, colours, notes, leftOut, faults }) => {
        const [width, height] = size, menuOf = ({ colour, thread }) => {
            const select = threadMenu(THREADS, { "aria-label": text("svg.threadOf", { colour }), change: () => readAgain({ threads: {
                ...options.threads, [colour]: Number(select.value) } }) });
            select.value = thread.number;
            return make("span", { class: "field" }, swatch(thread.colour), select);
        };
        return drawingCard(file.name, make("div", { class: "tools" },
            sizeField("svg.width", "width", width, { min: "1", max: "6000" }),
            sizeField("svg.height", "width", height, { min: "1", max: "6000" }, value => Math.max(1, Math.round(value * width / Math.max(height, 1)))),
            sizeField("svg.step", "step", options.step ?? 25, { min: "0.1", max: "204.7" }),
            button("svg.centre", () => readAgain({ isCentred: true }), { disabled: options.isCentred })),
        [...notes, leftOut].filter(Boolean).map(line => make("p", { class: "hint" }, line)),
        faults.length > 0 && make("details", {}, make("summary", {}, text("svg.leftOut", { count: faults.length })), make("ul", {},
            faults.slice(0, LISTED).map(line => make("li", {}, line)))),
        table(["svg.colour", "svg.thread"], colours.map(one => [make("span", { class: "field" }, swatch(one.colour), make("code", {},
            one.colour)), menuOf(one)]), { label: text("svg.threads") }));
    };

    // A drawing that is open, and where one goes on from it.
    const drawingCard = (name, ...parts) => make("section", { class: "card" }, make("div", { class: "title" }, make("h2", {}, text("open.isOpen",
        { name })), make("div", { class: "onward" }, button("drawing.go", () => open("drawing")), button("ready.go", makeReady,
        { class: "primary" }))), parts);
    const paintCard = painter((refused, svg, name) => fill(card, refused ? refusedCard(refused) : svg ? svgCard(svg) : name ? drawingCard(name)
        : null));

    const advice = make("div");
    const paintAdvice = painter(size => fill(advice, hoopAdvice(size, width => makeWide(size, width))));

    const chosen = make("input", { type: "file", multiple: true, accept: ".rw,.svg,.dst,.exp,.pec,.pes,.lst,.cert,.txt",
        change: async () => {
            await take([...chosen.files]);
            chosen.value = "";
        } });
    const count = make("input", { type: "number", min: "1", max: "999999", value: "75" });
    const intro = make("div", { class: "intro" }, make("div", {}, make("h2", {}, text("open.title")), make("p", {}, text("open.lead")),
        make("p", {}, text("open.machines"))), make("div", { class: "figures" }, pictures.map(({ element }) => element)));
    const element = make("div", {}, intro, make("div", { class: "tools" }, hoop.element, make("span", { class: "hint" }, text("hoop.first"))),
        chooser("open.drop", chosen, make("span", {}, text("open.kinds"))),
        said, offered, advice, card, make("h3", {}, text("open.examples")), make("p", { class: "hint" }, text("open.examplesHint")),
        make("div", { class: "chips" }, Object.keys(examples).map(name => make("button", { type: "button",
            click: () => openOne({ name, bytes: bytesOfText(examples[name]) }, openSvg) }, name))),
        make("h3", {}, text("open.begin")),
        make("div", { class: "tools" }, button("open.new", openNew), make("div", { class: "group" }, field("open.number", count),
            button("open.sample", () => openSample(count.value)))));
    const show = () => {
        const step = drawn(), { svg } = step ?? {}, first = known("first");
        hoop.show();
        intro.hidden = Boolean(step || state.refusedSvg);
        if (first) [first.before, first.after].forEach((bytes, k) => pictures[k].paint(bytes));
        paintRefusals(state.refusals);
        paintOffered(state.offered);
        paintCard(state.refusedSvg, svg, step?.base);
        paintAdvice(state.refusedSvg ? null : step?.isOpening && svg ? svg.size : null, state.hoop);
    };
    return { element, wants: () => drawn() ? [] : ["first"], show };
}
