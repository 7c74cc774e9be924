// The view in which a design is sewn on the screen, needle by needle.
import { open } from "./actions.js";
import { KINDS } from "./design.js";
import { button, field, fill, head, make, menu, mm, painter, say } from "./elements.js";
import { Player } from "./player.js";
import { change, drawn, known, state } from "./state.js";
import { text } from "./texts.js";
import { threadOf } from "./threads.js";
import { lookedAt } from "./topics.js";

const SPEEDS = [2, 10, 30, 100, 300, 1000, 5000, 20000], TRIM = KINDS.indexOf("trim");
// The controls that have a use of their own for the keys.
const TYPED = "input:not([type=range]), select, textarea, [role=tab]";

export function playView() {
    const threads = make("canvas", { role: "img" }), holes = make("canvas", { "aria-hidden": "true" });
    const needle = make("span", { class: "needle", hidden: true }), message = make("p", { class: "refused", role: "alert" });
    const player = new Player(threads, holes, point => {
        needle.hidden = !point;
        if (point) needle.style.transform = `translate(${point[0]}px, ${point[1]}px)`;
    });
    const now = make("p", { class: "now" }), slider = make("input", { type: "range", min: "0", value: "0",
        "aria-label": text("play.slider"), input: () => stepTo(Number(slider.value)) });
    const at = make("input", { type: "number", class: "long", min: "0", value: "0", change: () => stepTo(Number(at.value)) });
    const speed = menu(SPEEDS.map(count => [count, text("play.speedOf", { count: count.toLocaleString("en") })]), {});
    speed.value = "30";
    const which = menu(["machine", "routed", "file"].map(kind => [kind, text(`play.${kind}`)]), { change: () => change({ played: which.value }) });
    let acts = null, playing = null, place = 0;

    const seek = count => {
        if (!acts) return;
        place = Math.min(Math.max(count || 0, 0), acts.kinds.length);
        player.showTo(Math.floor(place));
        describe();
    };
    const describe = () => {
        const end = Math.floor(place), all = acts.kinds.length, k = end - 1;
        slider.value = at.value = end;
        if (!end) {
            fill(now, text("play.begin", { all }));
            return;
        }
        const thread = threadOf(acts.threads[acts.blocks[k]]), square = make("span", { class: "swatch" });
        square.style.background = thread.colour;
        fill(now, square, text("play.now", { end, all, kind: text(`act.${KINDS[acts.kinds[k]]}`), x: mm(acts.xs[k]), y: mm(acts.ys[k]),
            block: acts.blocks[k] + 1, thread: thread.number, name: thread.name }));
    };
    const pause = () => {
        cancelAnimationFrame(playing);
        playing = null;
        play.textContent = text("play.play");
    };
    const start = () => {
        if (!acts) return;
        if (place >= acts.kinds.length) seek(0);
        let before = performance.now();
        const frame = time => {
            seek(place + Math.max(0, time - before) / 1000 * Number(speed.value));
            before = time;
            if (place >= acts.kinds.length || state.view !== "play") pause();
            else playing = requestAnimationFrame(frame);
        };
        play.textContent = text("play.pause");
        playing = requestAnimationFrame(frame);
    };
    const toggle = () => playing ? pause() : start();
    const play = button("play.play", toggle, { class: "primary" });
    // Goes to the next trim or stop, or to the one before.
    const jump = by => {
        pause();
        let k = Math.floor(place) + (by > 0 ? 0 : -2);
        while (acts?.kinds[k] < TRIM) k += by;
        seek(k + 1);
    };
    const stepTo = count => {
        pause();
        seek(count);
    };
    const keys = { " ": toggle, ArrowLeft: () => stepTo(Math.floor(place) - 1), ArrowRight: () => stepTo(Math.floor(place) + 1),
        Home: () => stepTo(0), End: () => stepTo(Infinity) };
    document.addEventListener("keydown", event => {
        const { target, key } = event, isOwn = target.closest?.(TYPED) || key === " " && target.closest?.("button, summary, a");
        if (state.view !== "play" || !keys[key] || isOwn || event.ctrlKey || event.altKey || event.metaKey) return;
        event.preventDefault();
        keys[key]();
    });

    const load = painter((found, hoop) => {
        const isNew = acts !== found.acts;
        acts = found.acts;
        pause();
        slider.max = at.max = acts.kinds.length;
        threads.setAttribute("aria-label", text("play.canvas", { name: found.file.name, count: acts.kinds.length }));
        player.load(acts, hoop);
        seek(isNew ? 0 : place);
    });
    new ResizeObserver(() => {
        if (acts && threads.clientWidth) player.fit();
    }).observe(threads);
    const stage = make("div", { class: "stage", tabindex: "0", role: "group", "aria-label": text("play.stage") }, threads, holes, needle);
    const filled = make("div", { class: "playing" }, message, make("div", { class: "tools" },
        make("div", { class: "group" }, play, button("play.first", () => stepTo(0)), button("play.back", () => stepTo(Math.floor(place) - 1)),
            button("play.on", () => stepTo(Math.floor(place) + 1)), button("play.last", () => stepTo(Infinity))),
        make("div", { class: "group" }, button("play.before", () => jump(-1)), button("play.after", () => jump(1))),
        field("play.speed", speed), field("play.at", at), field("play.which", which)), slider, now, stage);
    // A click on a button leaves the focus where it is, so that the space bar plays on.
    filled.addEventListener("mousedown", event => {
        if (event.target.closest("button")) event.preventDefault();
    });
    const empty = make("p", { class: "empty" }, text("play.none"), " ", button("open.go", () => open("open")));
    const element = make("div", {}, head("play.title", button("design.go", () => open("design"))), empty, filled);

    const show = () => {
        const found = known("acts"), file = lookedAt(), isOpen = Boolean(drawn() || file);
        [empty.hidden, filled.hidden] = [isOpen, !isOpen];
        for (const option of which.options) option.disabled = option.value === "file" ? !file : !drawn();
        which.value = state.played;
        const refused = state.played === "file" ? found?.refused : known("design")?.refused ?? found?.refused;
        say(message, refused, true);
        stage.classList.toggle("stale", !found?.acts);
        if (found?.acts) load(found, state.hoop);
        else if (refused || found === null) pause();
    };
    return { element, wants: () => ["acts"], show };
}
