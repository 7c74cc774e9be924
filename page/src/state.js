// What is open in the page, and what the programs say of it.
//
// The state changes by what a person does (`change`), and by nothing else. A topic is something that the programs say of the state:
// `of` gives the values that it is made of, or null where there is nothing to ask, and `ask` asks. The store alone asks. It asks for
// the topics that the view in front wants, one after another, and for no topic twice whose values are the same. A topic whose values
// change while it is asked for is dropped, and asked for again: the last one wins. Views show what is known, and can't change the state
// while they show it.
import { Stopped } from "../stitch.js";
import { text } from "./texts.js";

export const state = {
    // the view in front
    view: "open",
    // the steps of the drawing, and the one that is shown: of each its base name, its text, what was done, what that said, whether it
    // opened a drawing, and the SVG file that it was read from
    steps: [], at: -1,
    // an SVG file that was refused, files that were dropped to be chosen from, and what couldn't be opened
    refusedSvg: null, offered: [], refusals: [],
    // the distance at which lines nearly meet, the sides of the hoop or null, the way to sew, what is done before it goes to a machine
    gap: 2, hoop: [1000, 1000], way: "route", finish: firstFinish(),
    // the command that changes the drawing now, what was said last, and the commands that refused the drawing that is shown
    acting: null, said: null, tried: [],
    // the text that was saved last
    saved: null,
    // the picture of the design that is shown, and the format of the files
    picture: "machine", format: "pes", isSplit: false,
    // stitch files, the one that is looked at, and the format that they are converted to
    designs: [], design: null, target: "pes",
    // what is played, three files to be checked, and two to be compared
    played: "machine", checked: {}, compared: [null, null],
};

const topics = new Map(), kept = new Map();
let showAll = () => {}, wantedNow = () => [], keep = () => {}, asking = null, isShowing = false;

// What is done to a design before it goes to a machine, if nothing else is chosen: its threads are tied.
export function firstFinish() {
    return { turn: "", mirror: "", threads: {}, edits: { tie: 10 } };
}

// The step of the drawing that is shown, or null where none is open.
export function drawn() {
    return state.steps[state.at] ?? null;
}

export function topic(name, given) {
    topics.set(name, { needs: () => [], ...given });
}

// Says what shows the state, which topics are wanted, and what keeps the state.
export function useStore(given) {
    [showAll, wantedNow, keep] = [given.show, given.wanted, given.keep];
}

const isSame = (one, other) => one === other
    || Boolean(one && other) && one.length === other.length && one.every((part, k) => part === other[k]);

// What a topic says of the present state: null where there is nothing to ask, and undefined as long as it isn't known.
export function known(name) {
    const given = topics.get(name).of(), found = kept.get(name);
    if (given === null) return null;
    return found && isSame(found.given, given) ? found.value : undefined;
}

// Whether a topic is asked for now.
export function isAsked(name) {
    return asking?.name === name;
}

// Changes what is open.
export function change(values) {
    if (isShowing) throw new Error("a view changes the state while it shows it");
    Object.assign(state, values);
    keep(values);
    refresh();
}

// Shows the state, and asks for what isn't known of it.
export function refresh() {
    show();
    if (asking && !isSame(asking.given, topics.get(asking.name).of())) asking.controller.abort();
    ask();
}

function show() {
    isShowing = true;
    try {
        showAll();
    } finally {
        isShowing = false;
    }
}

// The first of some topics that isn't known, after those that it needs.
function firstUnknown(names) {
    for (const name of names) {
        const { needs } = topics.get(name), below = firstUnknown(needs());
        if (below) return below;
        if (known(name) === undefined) return name;
    }
    return null;
}

// Asks for the next topic that isn't known, unless one is asked for.
async function ask() {
    const name = asking ? null : firstUnknown(wantedNow());
    if (!name) return;
    const given = topics.get(name).of(), controller = new AbortController();
    asking = { name, given, controller };
    show();
    let value;
    try {
        value = await topics.get(name).ask(controller.signal, ...given);
    } catch (why) {
        if (!(why instanceof Stopped)) console.error(why);
        value = { refused: why.message, isStopped: true };
    }
    asking = null;
    // what was made of values that changed meanwhile is dropped
    if (!controller.signal.aborted) kept.set(name, { given, value: value ?? null });
    show();
    ask();
}

// Whether something was stopped that isn't known now.
export function isStopped() {
    return [...kept].some(([name, { value }]) => value?.isStopped && known(name) === value);
}

// Forgets what was stopped, so that it is asked for again.
export function askAgain() {
    for (const [name, { value }] of kept) if (value?.isStopped) kept.delete(name);
    refresh();
}
