// Starts the page: the module, the runner, the work that was kept, the views.
import { Stopped } from "../stitch.js";
import { isUnsaved, openFiles } from "./actions.js";
import { useRunner } from "./commands.js";
import { fill, make } from "./elements.js";
import { PageRunner } from "./runner.js";
import { askAgain, change, isStopped, state, useStore } from "./state.js";
import { statusBar } from "./status_bar.js";
import { isKept, keepNow, keepSoon, keptWork } from "./storage.js";
import { drawingOfSvg, openSvg } from "./svg_files.js";
import { tabsOf } from "./tabs.js";
import { text } from "./texts.js";
import { editsInRange } from "./topics.js";
import { checkView } from "./view_check.js";
import { convertView } from "./view_convert.js";
import { designView } from "./view_design.js";
import { drawingView } from "./view_drawing.js";
import { openView } from "./view_open.js";
import { playView } from "./view_play.js";
import { provedView } from "./view_proved.js";

const part = id => document.getElementById(id).textContent;

// The module, which stands in the page packed by gzip as base64.
async function moduleOf(base64) {
    const letters = atob(base64.trim()), packed = new Uint8Array(letters.length);
    for (let k = 0; k < packed.length; k++) packed[k] = letters.charCodeAt(k);
    const stream = new Blob([packed]).stream().pipeThrough(new DecompressionStream("gzip"));
    return WebAssembly.compile(await new Response(stream).arrayBuffer());
}

// Shows the page over what is open.
function showPage(bar) {
    const views = { open: openView(), drawing: drawingView(), design: designView(), play: playView(), check: checkView(), convert: convertView(),
        proved: provedView(part("theorems-source")) };
    const tabs = tabsOf(views);
    document.addEventListener("dragover", event => event.preventDefault());
    document.addEventListener("drop", event => {
        event.preventDefault();
        if (event.dataTransfer.files.length) openFiles([...event.dataTransfer.files], openSvg);
    });
    fill(document.body, make("header", {}, make("h1", {}, text("page.name")), make("p", {}, text("page.what")), make("nav", {}, tabs.list)),
        make("main", {}, tabs.panels), bar.element);
    useStore({ wanted: () => views[state.view].wants(), keep: values => keepSoon(state, values), show: () => {
        tabs.show();
        views[state.view].show();
        bar.say(state.acting, isStopped());
    } });
}

// What was made and not saved is asked about before the page goes. It is kept in any case, where the browser keeps anything.
function keepOnLeaving() {
    window.addEventListener("beforeunload", event => {
        if (isUnsaved()) event.preventDefault();
    });
    document.addEventListener("visibilitychange", keepNow);
    window.addEventListener("pagehide", keepNow);
}

// A run that was stopped needs no word: the bar says so. What else fails is shown.
window.addEventListener("unhandledrejection", event => {
    if (event.reason instanceof Stopped) event.preventDefault();
});

async function start() {
    document.title = text("page.title");
    let bar = null;
    const runner = new PageRunner(await moduleOf(part("module")), part("worker"), () => bar?.changed()), work = await keptWork();
    bar = statusBar(runner, askAgain);
    useRunner(runner);
    showPage(bar);
    keepOnLeaving();
    if (work) work.finish.edits = editsInRange(work.finish.edits);
    change({ ...work, refusals: isKept() ? [] : [text("page.notKept")] });
    // what a test in a browser calls
    window.stitch = { run: (...words) => runner.run(...words), programs: [...runner.programs], svg: drawingOfSvg,
        runs: () => Boolean(runner.running || runner.waiting.length || state.acting), count: () => runner.count };
}

if (!document.documentElement.classList.contains("unable")) start();
