// The view in which stitch files are looked at, converted to another format, or traced to a drawing.
import { open, openDesigns, save, traceDesign } from "./actions.js";
import { convert, edit, hasProgram, task } from "./commands.js";
import { placesOf, threadsOf } from "./design_report.js";
import { button, chooser, choice, field, fill, make, menu, mm, painter, say } from "./elements.js";
import { FORMATS, baseOf, endingOf, readFiles } from "./files.js";
import { fitOf, hoopControl } from "./hoop.js";
import { lossesOf } from "./losses.js";
import { change, known, state } from "./state.js";
import { text } from "./texts.js";
import { lookedAt } from "./topics.js";
import { refusalOf, saidOf } from "./words.js";
import { pictureFrame } from "./zoom.js";

// The counts of a report of `show` that are in the table, and what else is said of a file.
const COUNTS = ["needles", "trims", "stops"];

// The value of a line of a report.
const valueOf = (lines, name) => lines.find(line => line.startsWith(`${name} `))?.slice(name.length + 1);

export function convertView() {
    const chosen = make("input", { type: "file", multiple: true, accept: FORMATS.map(ending => `.${ending}`).join(), change: async () => {
        const { files, refusals } = await readFiles([...chosen.files]);
        if (files.length) openDesigns(files);
        change({ refusals });
        chosen.value = "";
    } });
    const format = menu(FORMATS.map(ending => [ending, text(`format.${ending}`)]), { change: () => change({ target: format.value, said: null }) });
    const [isSplit, isCut, isTied] = [0, 1, 2].map(() => make("input", { type: "checkbox" })), hoop = hoopControl();
    const [list, report, losses, said] = [make("div"), make("div"), make("div"), make("p", { class: "said", role: "status" })];
    const pictures = pictureFrame("convert.frame"), message = make("p", { class: "refused", role: "alert" });

    // All stitch files that are open, with what is said of each.
    const paintList = painter((files, all, now, sides) => fill(list, make("div", { class: "wide", tabindex: "0", role: "region", "aria-label":
        text("convert.list") }, make("table", {}, make("thead", {}, make("tr", {}, ["file", "size", "hoop", ...COUNTS, "places", "close"].map(key =>
        make("th", { scope: "col" }, text(`convert.${key}`))))), make("tbody", {}, files.map((file, k) => {
        const found = all?.[k], lines = found?.shown ?? [], { size, places } = found?.looked ?? {};
        return make("tr", {}, make("td", {}, make("button", { type: "button", "aria-pressed": String(file === now), click: () => change({
            design: file.name, said: null }) }, file.name)), found?.refused ? make("td", { colspan: 6, class: "refused" }, found.refused)
            : [size ? `${mm(size[0])} × ${mm(size[1])}` : "", size && sides ? text(fitOf(size, sides).fits ? "convert.fits" : "convert.fitsNot") : "",
                ...COUNTS.map(name => valueOf(lines, name) ?? ""), places ?? ""].map(cell => make("td", {}, String(cell))),
        make("td", {}, button("convert.closeOne", () => change({ designs: state.designs.filter(one => one !== file), said: null }),
            { "aria-label": text("convert.closeName", { name: file.name }) })));
    }))))));
    const paintReport = painter(found => {
        if (!found || found.refused) {
            fill(report, found && make("p", { class: "refused", role: "alert" }, found.refused));
            return;
        }
        const { shown: lines, looked } = found, label = /^\[(.*)\]$/.exec(valueOf(lines, "label") ?? "")?.[1];
        fill(report, make("ul", { class: "plain" }, label && make("li", {}, text("convert.label", { label })), make("li", {}, text("convert.extent",
            Object.fromEntries((valueOf(lines, "extent") ?? "0 0 0 0").split(" ").map((part, k) => [["left", "top", "right", "low"][k], mm(part)]))))),
        valueOf(lines, "ended") === "no" && make("p", { class: "refused" }, text("convert.cutOff")), looked && [make("h3", {}, text("design.threads")),
            threadsOf(looked), make("h3", {}, text("finish.look")), placesOf(looked)]);
    });
    const paintLosses = painter((from, to) => {
        const lost = lossesOf(from, to);
        fill(losses, make("p", {}, text("convert.kept")), lost.length ? [make("p", {}, text("convert.lost", { to })), make("ul", {}, lost.map(what =>
            make("li", {}, text(`lost.${what}`))))] : make("p", {}, text("convert.nothing")));
    });
    const paintPicture = painter((bytes, name) => pictures.show(bytes, text("convert.alt", { name })));

    // A stitch file in the format that is chosen, tied where that is chosen, under a name of its own.
    const converted = async file => {
        const { target } = state, base = baseOf(file.name), plain = `${base}.${target}`, name = plain === file.name ? `${base}-new.${target}` : plain;
        const refits = [...isSplit.checked ? ["--split"] : [], ...isCut.checked ? ["--cut"] : []];
        const tied = isTied.checked ? await edit("stitch_design", file, `tied.${endingOf(file.name)}`, ["tie"]) : { isDone: true, made: file };
        return tied.isDone ? convert(tied.made, name, refits) : tied;
    };
    const doConvert = async () => {
        const reply = await converted(lookedAt());
        change({ said: { words: reply.isDone ? saidOf(reply.out) : refusalOf(reply.err), isRefused: !reply.isDone } });
        if (reply.isDone) save(reply.made);
    };
    // Converts all files into one zip. What can't be converted is told.
    const convertAll = async () => {
        const made = [], faults = [];
        for (const file of state.designs) {
            const reply = await converted(file), name = reply.made?.name;
            if (!reply.isDone) faults.push(`${file.name}: ${refusalOf(reply.err)}`);
            else made.push({ ...reply.made, name: made.some(one => one.name === name) ? `${endingOf(file.name)}-${name}` : name });
        }
        change({ said: { words: [text("convert.all.said", { count: made.length, all: state.designs.length }), ...faults].join("\n"), isRefused:
            faults.length > 0 } });
        if (made.length) save({ name: `${state.target}.zip`, bytes: await task("zip", made) });
    };
    const actions = [button("convert.go", doConvert, { class: "primary" }), button("convert.play", () => {
        change({ played: "file", view: "play" });
    }), button("convert.trace", () => traceDesign(lookedAt()))], all = button("convert.all", convertAll);
    const empty = make("p", { class: "empty" }, text("convert.none"));
    const filled = make("div", {}, list, make("div", { class: "columns" }, make("div", {}, make("div", { class: "tools" }, hoop.element),
        pictures.element), make("div", {}, make("section", { class: "card" }, make("div", { class: "tools" }, field("convert.to", format)), losses,
        make("div", { class: "tools" }, choice("convert.split", isSplit), choice("convert.cut", isCut),
            hasProgram("stitch_design") && choice("convert.tie", isTied)),
        make("div", { class: "tools" }, actions, all), said), report)));
    const element = make("div", {}, make("h2", {}, text("convert.title")), make("p", {}, text("convert.lead")),
        chooser("convert.choose", chosen, make("span", {}, text("convert.kinds")), { class: "drop small" }), message, empty, filled);
    const show = () => {
        const file = lookedAt(), found = known("seen");
        [empty.hidden, filled.hidden] = [Boolean(file), !file];
        say(message, state.refusals.join("\n"), true);
        if (!file) return;
        hoop.show();
        format.value = state.target;
        paintList(state.designs, known("table"), file, state.hoop);
        paintLosses(endingOf(file.name), state.target);
        say(said, state.said?.words, state.said?.isRefused);
        all.hidden = state.designs.length < 2;
        for (const control of actions) control.disabled = Boolean(found?.refused);
        pictures.element.classList.toggle("stale", !found);
        if (!found) return;
        paintReport(found);
        paintPicture(found.picture, file.name);
    };
    return { element, wants: () => ["table", "seen"], show };
}
