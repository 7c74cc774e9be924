// What a person does in the page: each of these changes the state.
import { Stopped } from "../stitch.js";
import { changedDrawing, sample, trace } from "./commands.js";
import { STEPS } from "./ready.js";
import { baseOf, download, kindOfFile, readFiles, textOfBytes } from "./files.js";
import { change, drawn, firstFinish, state } from "./state.js";
import { text } from "./texts.js";
import { refusalOf, saidOf } from "./words.js";

const FIRST = "redwork 3\nstep 25\ncolor 5\nline 0 0 300 0 300 200 0 200 0 0\nline 0 0 150 -120 300 0\n";
// So many steps are kept.
const STEPS_MOST = 300;

// Goes to a view. What was said and refused before isn't told again.
export function open(view) {
    change({ view, said: null, refusals: [] });
}

// The steps with one more after the one that is shown.
function withStep(step) {
    const steps = [...state.steps.slice(0, state.at + 1), step].slice(-STEPS_MOST);
    return { steps, at: steps.length - 1, tried: [] };
}

// Opens a drawing. What was open before is a step before it.
export function openDrawing(base, words, what, values = {}) {
    change({ ...withStep({ base, text: words, what, isOpening: true, ...values.step }), finish: firstFinish(), way: "route", picture: "machine",
        said: null, refusedSvg: null, refusals: [], saved: words, ...values.state });
}

// Adds a step to the drawing that is open.
export function addStep(words, what, values = {}) {
    const { base, svg } = drawn();
    change({ ...withStep({ base, text: words, what, svg, ...values.step }), ...values.state });
}

// Takes what is typed: as long as one types, it is one step.
export function type(words) {
    const step = { ...drawn(), text: words, what: text("drawing.typed"), report: "", name: "typed", isOpening: false };
    const before = drawn()?.name === "typed" ? { at: state.at - 1 } : {};
    Object.assign(state, before);
    change({ ...withStep(step), said: null });
}

// Goes to another step. The threads and edits of another drawing aren't those of this one.
export function goTo(at) {
    const step = state.steps[at];
    if (!step) return;
    const opening = k => state.steps.slice(0, k + 1).findLastIndex(({ isOpening }) => isOpening);
    change({ at, said: null, tried: [], ...opening(at) === opening(state.at) ? {} : { finish: firstFinish(), way: "route" } });
}

// Does something that takes time, one thing at once. What is done is of the drawing that is shown when it began.
async function doing(name, work) {
    if (state.acting) return;
    const before = drawn();
    change({ acting: name, said: null });
    let values = {};
    try {
        values = await work(() => drawn() === before);
    } catch (why) {
        if (!(why instanceof Stopped)) throw why;
    } finally {
        change({ acting: null, ...values });
    }
}

// The drawing after a command: a step for it, or why it is refused.
async function stepOf({ base, text: words, svg }, what, command) {
    const made = await changedDrawing(base, words, command);
    return made.isDone ? { step: { base, text: made.text, what, svg, report: saidOf(made.out), name: command.name } }
        : { refusal: refusalOf(made.err) };
}

// Does a command of a program to the drawing, which is a step that can be undone.
export function act(what, command) {
    const { name } = command, from = drawn();
    return doing(what, async isStill => {
        const { step, refusal } = await stepOf(from, what, command);
        if (!isStill()) return {};
        return step ? { ...withStep(step), said: { words: step.report } }
            : { said: { words: refusal, isRefused: true }, tried: name ? [...state.tried, name] : state.tried };
    });
}

// The names of the steps that were done to the drawing since it was opened.
export function doneSteps() {
    const steps = state.steps.slice(0, state.at + 1);
    return steps.slice(steps.findLastIndex(({ isOpening }) => isOpening)).map(({ name }) => name);
}

// Makes the drawing ready by all steps, and goes to what is made of it. A step that is refused is told, and left out.
export function makeReady() {
    return doing(text("ready.go"), async isStill => {
        const done = [], before = doneSteps();
        let now = drawn(), values = {};
        for (const { name, program, before: wordsOf, isNeeded, isOnce } of STEPS) {
            if (isNeeded && !isNeeded(now.text)) continue;
            if (isOnce && before.includes(name)) {
                done.push({ name, words: text("ready.before") });
                continue;
            }
            const { step, refusal } = await stepOf(now, text(`step.${name}`), { name, program, before: wordsOf(state) });
            if (!isStill()) return {};
            done.push({ name, words: step ? step.report : text("ready.refused", { why: refusal }), isRefused: !step });
            if (step && step.text !== now.text) {
                now = step;
                const steps = [...(values.steps ?? state.steps.slice(0, state.at + 1)), step];
                values = { steps, at: steps.length - 1 };
            }
        }
        if (done.every(({ isRefused }) => isRefused)) return { said: { words: done.at(-1).words, isRefused: true } };
        const at = values.at ?? state.at, steps = [...values.steps ?? state.steps], more = Math.max(steps.length - STEPS_MOST, 0);
        steps[at] = { ...steps[at], ready: { done, from: state.at - more } };
        return { steps: steps.slice(more), at: at - more, tried: [], view: "design", picture: "machine" };
    });
}

export async function openSample(number) {
    const made = await sample(number);
    if (!made.isDone) change({ refusals: [refusalOf(made.err)] });
    else openDrawing(`sample-${number}`, made.text, text("open.sampleOf", { number }), { state: { view: "drawing" } });
}

export function openNew() {
    openDrawing("drawing", FIRST, text("open.new"), { state: { view: "drawing" } });
}

export async function traceDesign(file) {
    const base = baseOf(file.name), made = await trace(file, base);
    if (made.isDone) openDrawing(base, made.text, text("convert.tracedFrom", { name: file.name }), { state: { view: "drawing" } });
    else change({ said: { words: refusalOf(made.err), isRefused: true } });
}

// Adds stitch files to those that are open, and looks at the first of them.
export function openDesigns(files) {
    const others = state.designs.filter(one => !files.some(({ name }) => name === one.name));
    change({ designs: [...others, ...files], design: files[0].name, played: "file", view: "convert", refusals: [] });
}

// Opens files that were chosen or dropped. A drawing with a stitch file and a certificate is to be checked; of several drawings one
// is chosen; all stitch files are opened.
export async function openFiles(given, openSvg) {
    const { files, refusals } = await readFiles(given), of = kind => files.filter(({ name }) => kindOfFile(name) === kind);
    const [drawings, designs, certificates] = [[...of("svg"), ...of("drawing")], of("design"), of("certificate")];
    change({ refusals, offered: drawings.length > 1 || drawings.length && designs.length && !certificates.length ? drawings : [] });
    if (of("drawing").length === 1 && designs.length === 1 && certificates.length === 1 && files.length === 3) {
        change({ checked: { drawing: of("drawing")[0], design: designs[0], certificate: certificates[0] }, view: "check" });
        return;
    }
    if (certificates.length) change({ refusals: [...refusals, text("open.certificateAlone")] });
    if (drawings.length === 1 && !designs.length) await openOne(drawings[0], openSvg);
    else if (designs.length) openDesigns(designs);
    if (refusals.length || state.offered.length) change({ view: "open", refusals });
}

// Opens one file of a drawing.
export async function openOne({ name, bytes }, openSvg) {
    if (kindOfFile(name) === "svg") await openSvg(name, textOfBytes(bytes));
    else openDrawing(baseOf(name), textOfBytes(bytes), name, { state: { view: "drawing" } });
}

// Saves a file, after which the work isn't unsaved.
export function save(file) {
    download(file);
    change({ saved: drawn()?.text ?? null });
}

// Whether something was made of what was opened, and not saved.
export function isUnsaved() {
    const step = drawn();
    return Boolean(step) && !step.isOpening && step.text !== state.saved;
}
