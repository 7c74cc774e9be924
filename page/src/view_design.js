// The view of what is made of the drawing: the steps that made it ready, its picture, the two ways to sew it, what is done before it
// goes to a machine, the hoop, and all files.
import { act, goTo, open, save } from "./actions.js";
import { hasProgram, task } from "./commands.js";
import { placesOf, threadsOf } from "./design_report.js";
import { button, choice, field, fill, folded, head, make, menu, mm, painter, say, setValue, swatch, table, threadMenu } from "./elements.js";
import { FORMATS, lengthText } from "./files.js";
import { hoopAdvice, hoopControl } from "./hoop.js";
import { stepNamed } from "./ready.js";
import { change, drawn, isAsked, known, state } from "./state.js";
import { makeWide } from "./svg_files.js";
import { text } from "./texts.js";
import { THREADS, threadOf } from "./threads.js";
import { EDITS } from "./topics.js";
import { pictureFrame } from "./zoom.js";

const WAYS = ["route", "double"], PICTURES = ["machine", "design", "proof", "double"];

export function designView() {
    const pictures = pictureFrame("route.frame"), hoop = hoopControl();
    const [message, said] = [make("p", { class: "refused", role: "alert" }), make("p", { class: "said", role: "status" })];
    const [steps, saved, files, faults, advice, fits, free, places, threads, ways] = Array.from({ length: 10 }, () => make("div"));

    // The steps that made the drawing ready, and how to take them back.
    const paintSteps = painter(ready => fill(steps, ready && make("section", { class: "card" }, make("h3", {}, text("ready.did")),
        make("ol", { class: "steps" }, ready.done.map(({ name, words, isRefused }) => make("li", {}, make("strong", {}, text(`step.${name}`)),
            make("span", { class: isRefused ? "refused" : null }, words)))),
        make("div", { class: "tools" }, button("ready.undo", () => goTo(ready.from)), button("drawing.go", () => open("drawing"))))));

    // What the best ends would save, where they aren't chosen yet.
    const paintFree = painter((found, isActing) => fill(free, found && found.to < found.from && make("p", { class: "warning" },
        text("free.saves", { count: found.from - found.to }), " ", button("step.free", () => act(text("step.free"), { name: "free",
            before: stepNamed("free").before() }), { disabled: isActing }))));

    const tabs = PICTURES.map(kind => make("button", { type: "button", "data-kind": kind, click: () => change({ picture: kind }) },
        text(`route.picture.${kind}`)));
    const paintPicture = painter((bytes, kind, name) => pictures.show(bytes, text(`route.alt.${kind}`, { name })));

    // The two ways to sew the drawing, with their counts.
    const paintWays = painter((chosen, ...all) => fill(ways, make("div", { class: "ways" }, WAYS.map((way, k) => {
        const made = all[k], sums = made?.lines?.at(-1), rows = made?.lines?.slice(0, -1) ?? [], isRoute = way === "route";
        const keep = make("input", { type: "radio", name: "way", value: way, change: () => change({ way, picture: "machine" }) });
        keep.checked = chosen === way;
        return make("section", { class: "card" }, make("h3", {}, text(`route.${way}`)), !made ? make("p", {}, text("route.going"))
            : made.refused ? make("p", { class: "refused" }, made.refused)
                : [make("p", { class: "count" }, make("strong", {}, String(sums.penetrations)), " ", text("route.needles"), " ",
                    text("route.inPieces", { pieces: sums.pieces })), make("p", { class: "hint" }, text(`route.${way}.means`)),
                choice("route.keep", keep), folded(text("route.report"), () => table(["route.block", "route.piece",
                    "route.lines", "route.cost", ...isRoute ? ["route.retraced"] : [], "route.penetrations"], rows.map(one => [one.block, one.piece,
                    one.lines, one.cost, ...isRoute ? [one.retraced] : [], one.penetrations]), { label: text(`route.${way}`) }))]);
    }))));

    const set = (name, value) => change({ finish: { ...state.finish, [name]: value } });
    const edits = EDITS.toReversed().map(({ name, least, most, first, isLength }) => {
        const by = isLength ? 10 : 1, box = make("input", { type: "checkbox", change: () => set("edits", { ...state.finish.edits,
            [name]: box.checked && (first ?? true) }) });
        const size = least && make("input", { type: "number", min: least / by, max: most / by, step: 1 / by, value: first / by,
            "aria-label": text(`finish.${name}`), change: () => set("edits", { ...state.finish.edits, [name]: Math.min(Math.max(Math.round(
                Number(size.value) * by), least), most) }) });
        const show = given => {
            box.checked = Boolean(given);
            if (size) setValue(size, (given || first) / by);
            if (size) size.parentElement.hidden = !given;
        };
        return { show, element: make("div", { class: "field" }, choice(`finish.${name}`, box), size && make("span", { class: "field" }, size,
            make("span", { class: "unit" }, isLength ? "mm" : ""))) };
    });
    const turned = menu([["", text("finish.noTurn")], ["1", text("drawing.turn1")], ["2", text("drawing.turn2")], ["3", text("drawing.turn3")]],
        { change: () => set("turn", turned.value) });
    const mirrored = menu([["", text("finish.noMirror")], ["x", text("drawing.mirrorX")], ["y", text("drawing.mirrorY")]],
        { change: () => set("mirror", mirrored.value) });
    const threadMenus = make("div", { class: "tools" });
    const paintThreads = painter((blocks, chosen) => fill(threadMenus, blocks.map(({ thread }, k) => {
        const now = chosen[k + 1] ?? thread, select = threadMenu(THREADS, { "aria-label": text("finish.thread", { block: k + 1 }),
            change: () => set("threads", { ...chosen, [k + 1]: Number(select.value) }) });
        select.value = String((now + 63) % 64 + 1);
        return make("span", { class: "field" }, make("span", {}, text("finish.block", { block: k + 1 })), swatch(threadOf(now).colour), select);
    })));
    const paintPlaces = painter(report => {
        fill(places, report && [make("h4", {}, text("finish.look")), placesOf(report)]);
        fill(threads, report?.blocks && [make("h4", {}, text("design.threads")), threadsOf(report)]);
    });

    const format = menu(FORMATS.map(ending => [ending, text(`format.${ending}`)]), { change: () => change({ format: format.value }) });
    const isSplit = make("input", { type: "checkbox", change: () => change({ isSplit: isSplit.checked }) });
    const saveButton = ({ file }, attributes) => make("button", { type: "button", "aria-label": text("keep.saveName", { name: file.name }),
        click: () => save(file), ...attributes }, text(attributes ? "keep.saveName" : "keep.save", { name: file.name }));
    const zip = async all => save({ name: `${state.steps[state.at].base}.zip`, bytes: await task("zip", all.map(({ file }) => file)) });
    const verdictLine = ({ verdict: { isYes, isBare } }) => make("div", { class: isYes ? "verdict" : "hint" },
        text(isYes ? isBare ? "keep.tiedYes" : "keep.yes" : "keep.tiedNo"));
    const paintFiles = painter((found, isGoing) => {
        const all = found?.files ?? [], [main] = all;
        fill(saved, isGoing && make("p", {}, text("keep.going")), main && make("div", { class: "tools" }, saveButton(main, { class: "primary" }),
            button("keep.zip", () => zip(all))), main?.verdict && verdictLine(main));
        say(faults, found?.faults?.join("\n"), true);
        fill(files, all.length > 0 && make("ul", { class: "files" }, all.map(item => make("li", {}, make("div", {}, make("strong", {}, item.file.name),
            make("span", { class: "hint" }, ` ${lengthText(item.file.bytes.length)}`), make("div", {}, text(item.what)), item.verdict
            && verdictLine(item)), saveButton(item)))));
    });
    const paintFit = painter((found, size, sides) => {
        const wide = size && hoopAdvice(size, width => makeWide(size, width));
        fill(advice, wide);
        fill(fits, found && !wide && make("p", { class: found.fits ? "said" : "refused", role: "status" }, found.words));
    });

    const filled = make("div", {}, message, advice, free, make("div", { class: "columns" },
        make("div", {}, make("div", { class: "switch", role: "group", "aria-label": text("route.pictures") }, tabs), pictures.element),
        make("div", {}, make("section", { class: "card" }, make("h3", {}, text("keep.title")), saved, faults, make("div", { class: "tools" },
            field("keep.format", format), choice("keep.split", isSplit)), make("div", { class: "tools" }, hoop.element), fits, places, threads),
        steps)),
    said, ways, make("div", { class: "ways" }, make("section", { class: "card" }, make("h3", {}, text("finish.title")), hasProgram("stitch_design")
        ? make("div", { class: "finish" }, edits.map(({ element }) => element)) : make("p", { class: "hint" }, text("finish.noTies")),
    make("div", { class: "tools" }, field("finish.turn", turned), field("finish.mirror", mirrored)), threadMenus),
    make("section", { class: "card" }, make("h3", {}, text("keep.all")), make("p", { class: "hint" }, text("finish.both")), files,
        make("p", { class: "hint" }, text("keep.limits")))));
    const empty = make("p", { class: "empty" }, text("drawing.none"), " ", button("open.go", () => open("open")));
    const onward = button("play.go", () => open("play"), { class: "primary" });
    const element = make("div", {}, head("route.title", onward), empty, filled);

    const show = () => {
        const step = drawn(), done = known("design"), report = known("report"), made = known("picture");
        [empty.hidden, filled.hidden, onward.hidden] = [Boolean(step), !step, !step];
        if (!step) return;
        hoop.show();
        say(message, done?.refused, true);
        say(said, state.said?.words, state.said?.isRefused);
        const kind = state.picture === "machine" && done && !done.isEdited ? "design" : state.picture;
        for (const tab of tabs) {
            tab.setAttribute("aria-pressed", tab.dataset.kind === kind);
            if (tab.dataset.kind === "machine") tab.hidden = Boolean(done) && !done.isEdited;
        }
        pictures.element.classList.toggle("stale", !made || Boolean(made.refused));
        if (made?.bytes) paintPicture(made.bytes, made.kind, step.base);
        paintSteps(step.ready);
        paintFree(known("free"), Boolean(state.acting));
        paintWays(state.way, known("route"), known("double"));
        for (const [k, { name }] of EDITS.toReversed().entries()) edits[k].show(state.finish.edits[name]);
        [turned.value, mirrored.value] = [state.finish.turn, state.finish.mirror];
        if (report?.blocks) paintThreads(report.blocks, state.finish.threads);
        paintPlaces(known("places"));
        [format.value, isSplit.checked] = [state.format, state.isSplit];
        paintFiles(known("files"), isAsked("files"));
        paintFit(known("fit"), report?.size, state.hoop);
    };
    return { element, wants: () => ["report", "design", "picture", "fit", "files", "free", "double", "places"], show };
}
