// The view of the drawing: its picture, its report and places, what can be done to it, and its text.
import { act, goTo, makeReady, open, type } from "./actions.js";
import { stepOf } from "./drawing.js";
import { drawingPicture, nearestPoint, rings } from "./drawing_picture.js";
import { button, centreIn, field, fill, folded, head, make, menu, millimetres, mm, painter, say, setValue, table, tenthsOf } from "./elements.js";
import { hoopAdvice, hoopControl } from "./hoop.js";
import { stepNamed } from "./ready.js";
import { change, drawn, known, state } from "./state.js";
import { makeWide } from "./svg_files.js";
import { text } from "./texts.js";
import { textEditor } from "./text_editor.js";
import { zoomFrame } from "./zoom.js";

// The edits of a drawing that turn or mirror it, by their texts.
const TURNS = { turn1: "turn=1", turn2: "turn=2", turn3: "turn=3", mirrorX: "mirror=x", mirrorY: "mirror=y", centre: "centre" };

// What a place is, in words; places of the same lines are one.
function placeText({ what, block, line, stitches, other, apart, shortest, longest, point, count }) {
    const words = text(`look.${what}`, { stitches, other, apart: mm(+apart), shortest: mm(+shortest), longest: mm(+longest) });
    const [x, y] = point.map(mm);
    return text(count > 1 ? "look.places" : "look.place", { block, line, x, y, what: words, count });
}

export function drawingView() {
    const zoom = zoomFrame("drawing.frame"), message = make("p", { class: "refused", role: "alert" });
    const said = make("p", { class: "said", role: "status" }), editor = textEditor(type), hoop = hoopControl();
    const [pieces, places, steps, advice, hint, remedy] = [make("div"), make("div"), make("ol", { class: "steps" }), make("div"), make("div"),
        make("div")];
    const [undo, redo] = [button("drawing.undo", () => goTo(state.at - 1)), button("drawing.redo", () => goTo(state.at + 1))];
    let shown = null, pictured = null, chosen = null;

    // Rings at what is chosen in the picture: places of the list, or a point.
    const ring = (points, kind) => {
        fill(pictured.marks, rings(points, pictured.unit, kind));
        if (points.length) centreIn(zoom.frame, pictured.marks.lastChild);
    };
    const choosePlace = (button, place) => {
        for (const one of places.querySelectorAll("button")) one.setAttribute("aria-pressed", one === button);
        ring([place.point], "ring");
        editor.showDrawnLine(+place.line);
    };

    const paintSteps = painter((all, at) => {
        undo.disabled = at <= 0;
        redo.disabled = at >= all.length - 1;
        fill(steps, all.map(({ what, report }, k) => make("li", { "aria-current": k === at ? "step" : null, class: k > at ? "undone" : null },
            make("button", { type: "button", class: "plainly", click: () => goTo(k) }, what), report && make("span", {}, report))));
    });
    const paintPicture = painter((found, sides) => {
        shown = found;
        pictured = drawingPicture(found, sides);
        chosen = null;
        zoom.show(pictured.svg);
    });
    const paintPieces = painter(({ pieces: all, sums }) => fill(pieces, make("p", {}, text("drawing.sums", { pieces: sums.pieces,
        thread: mm(sums.thread), travel: mm(sums.travel) })),
    folded(text("look.pieces"), () => table(["look.piece", "look.block", "look.lines", "look.odd", "look.stitches",
        "look.shortest", "look.longest", "look.short", "look.thread", "look.travel"], all.map(one => [one.piece, one.block, one.lines, one.odd,
        one.stitches, mm(one.shortest), mm(one.longest), one.short, mm(one.thread), mm(one.travel)]), { label: text("look.table") }))));
    const paintPlaces = painter(({ kinds }) => fill(places, kinds.length ? kinds.map(({ what, all, items }) => folded(
        text(`look.kind.${what}`, { count: all }), () => make("ol", {}, items.map(place => {
            const one = make("button", { type: "button", "aria-pressed": "false", click: () => choosePlace(one, place) }, placeText(place));
            return make("li", {}, one);
        })))) : make("p", {}, text("look.noPlace"))));
    const paintHint = painter((name, isActing) => fill(hint, name && make("p", { class: "hint" }, text(`look.try.${name}`), " ", button(`step.${name}`,
        () => doStep(name), { disabled: isActing }))));
    const paintAdvice = painter(size => fill(advice, hoopAdvice(size, width => makeWide(size, width))));

    // Does a step of the way to a drawing that is ready, or an edit.
    const doStep = (name, after = []) => {
        const { program, before } = stepNamed(name);
        return act(text(`step.${name}`), { name, program, before: before(state), after });
    };
    const editBy = (what, ...edits) => act(what, { before: ["edit"], after: edits });

    const gap = millimetres(2, { min: "0", max: "10", change: () => change({ gap: Math.min(Math.max(tenthsOf(gap), 0), 100) }) });
    const [length, leeway] = [204.7, 10].map(most => make("input", { type: "number", min: "0.1", max: most, step: "0.1",
        placeholder: text("drawing.auto") }));
    const spacing = () => Object.entries({ length, leeway }).filter(([, input]) => input.value !== "")
        .map(([name, input]) => `${name}=${tenthsOf(input)}`);
    const step = millimetres(25, { min: "0.1", max: "204.7" }), [dx, dy] = [millimetres(0), millimetres(0)];
    const [first, second] = [2, 1].map(value => make("input", { type: "number", min: "1", max: "1024", value }));
    const [x, y] = [millimetres(0), millimetres(0)], point = () => `${tenthsOf(x)},${tenthsOf(y)}`, pointSaid = make("p", { class: "hint", role: "status" });

    // Chooses a listed point by its index; those before the first and after the last come round.
    const choosePoint = k => {
        const count = shown.points.length / 2;
        chosen = (k + count) % count;
        const found = [shown.points[2 * chosen], shown.points[2 * chosen + 1]];
        [x.value, y.value] = found.map(part => part / 10);
        pointSaid.textContent = text("drawing.point", { x: mm(found[0]), y: mm(found[1]) });
        fill(pictured.marks, rings([found], pictured.unit, "point"));
    };
    zoom.frame.addEventListener("click", event => {
        const svg = zoom.frame.querySelector("svg");
        if (svg && shown) choosePoint(nearestPoint(shown.points, svg, event.clientX, event.clientY));
    });
    const nextPoint = by => {
        if (!shown) return;
        choosePoint(chosen === null ? (by > 0 ? 0 : -1) : chosen + by);
        centreIn(zoom.frame, pictured.marks.lastChild);
    };
    const group = (key, ...children) => make("div", { class: "group", role: "group", "aria-label": text(key) }, children);
    const points = group("drawing.points", button("drawing.pointBefore", () => nextPoint(-1)), button("drawing.pointAfter", () => nextPoint(1)),
        field("drawing.x", x, "mm"), field("drawing.y", y, "mm"),
        button("drawing.start", () => editBy(text("drawing.begun"), `start=${point()}`)),
        button("drawing.end", () => editBy(text("drawing.ended"), `end=${point()}`)));
    const turns = menu(Object.keys(TURNS).map(key => [TURNS[key], text(`drawing.${key}`)]), { "aria-label": text("drawing.turning") });
    const tools = make("fieldset", { class: "tools", "aria-label": text("drawing.tools") },
        group("step.snap", field("drawing.gap", gap, "mm"), button("step.snap", () => doStep("snap"), { title: text("step.snap.title") })),
        group("step.cross", button("step.cross", () => doStep("cross"), { title: text("step.cross.title") })),
        group("step.space", field("drawing.length", length, "mm"), field("drawing.leeway", leeway, "mm"),
            button("step.space", () => doStep("space", spacing()), { title: text("step.space.title") })),
        group("drawing.ends", button("step.free", () => doStep("free"), { title: text("step.free.title") }),
            button("step.near", () => doStep("near"), { title: text("step.near.title") })));
    const more = make("details", { class: "more" }, make("summary", {}, text("drawing.more")), make("div", { class: "tools" },
        group("drawing.step", field("drawing.longest", step, "mm"), button("drawing.step", () => editBy(text("drawing.stepped",
            { length: mm(tenthsOf(step)) }), `step=${tenthsOf(step)}`))),
        group("drawing.turning", turns, button("drawing.turn", () => editBy(turns.selectedOptions[0].textContent, turns.value))),
        group("drawing.order", field("drawing.piece", first), field("drawing.before", second),
            button("drawing.order", () => editBy(text("drawing.ordered", { first: first.value, second: second.value }),
                `order=${first.value},${second.value}`))),
        group("drawing.move", field("drawing.right", dx, "mm"), field("drawing.down", dy, "mm"),
            button("drawing.move", () => editBy(text("drawing.moved", { x: mm(tenthsOf(dx)), y: mm(tenthsOf(dy)) }),
                `shift=${tenthsOf(dx)},${tenthsOf(dy)}`)))));

    const filled = make("div", { class: "columns" },
        make("div", {}, make("div", { class: "tools" }, group("drawing.history", undo, redo), hoop.element), tools, more, said, advice, zoom.element,
            points, pointSaid, make("p", { class: "hint" }, text("drawing.legend")), pieces),
        make("div", {}, message, remedy, make("h3", {}, text("look.title")), hint, places,
            make("h3", {}, text("drawing.text")), editor.element, make("h3", {}, text("drawing.steps")), steps));
    const empty = make("p", { class: "empty" }, text("drawing.none"), " ", button("open.go", () => open("open")));
    const onward = [button("route.go", () => open("design")), button("ready.go", makeReady, { class: "primary" })];
    const element = make("div", {}, head("drawing.title", onward), empty, filled);
    const paintRemedy = painter(isOld => fill(remedy, isOld && button("step.migrate", () => doStep("migrate"))));

    const show = () => {
        const now = drawn(), report = known("report"), isActing = Boolean(state.acting);
        [empty.hidden, filled.hidden, onward[0].hidden, onward[1].hidden] = [now, !now, !now, !now].map(Boolean);
        if (!now) return;
        hoop.show();
        editor.show(now.text);
        paintSteps(state.steps, state.at);
        say(said, state.said?.words, state.said?.isRefused);
        tools.disabled = isActing;
        onward[1].disabled = isActing;
        setValue(gap, state.gap / 10);
        if (report === undefined) return;
        say(message, report.refused, true);
        editor.mark(report.refused ? report.line : null);
        zoom.element.classList.toggle("stale", Boolean(report.refused));
        paintRemedy(Boolean(report.refused) && stepNamed("migrate").isNeeded(now.text));
        if (report.refused) {
            paintHint(null, false);
            return;
        }
        setValue(step, stepOf(now.text) / 10);
        paintPicture(report, state.hoop);
        paintPieces(report);
        paintPlaces(report);
        paintHint(known("hint")?.name, isActing);
        paintAdvice(report.size, state.hoop);
    };
    return { element, wants: () => ["report", "hint"], show };
}
