// Keeps the work in the browser's own storage, so that it is there when the page is opened again. Nothing of it leaves the browser.
const NAMES = ["view", "steps", "at", "gap", "hoop", "way", "finish", "saved", "format", "isSplit", "design", "target"];
// Milliseconds after a change before the work is kept, characters of steps of which the last ones are kept, and bytes of stitch files
// above which they aren't kept.
const PATIENCE = 300, STEPS_MOST = 2e7, DESIGNS_MOST = 1 << 26;
let base = null, waiting = null, given = null, areDesignsNew = false;

const done = request => new Promise((resolve, reject) => {
    request.onsuccess = () => resolve(request.result);
    request.onerror = () => reject(request.error);
});

async function opened() {
    const request = indexedDB.open("stitch", 1);
    request.onupgradeneeded = () => request.result.createObjectStore("work");
    return done(request);
}

// The work that was kept, or null; also where the browser keeps nothing.
export async function keptWork() {
    try {
        base = await opened();
        const store = base.transaction("work").objectStore("work");
        const [work, designs] = await Promise.all([done(store.get("work")), done(store.get("designs"))]);
        return work ? { ...work, designs: designs ?? [] } : null;
    } catch {
        base = null;
        return null;
    }
}

// Whether the browser keeps what is open.
export function isKept() {
    return base !== null;
}

// Keeps the state after a change of some of its values, in a while.
export function keepSoon(state, values) {
    areDesignsNew ||= "designs" in values;
    if (!areDesignsNew && !NAMES.some(name => name in values)) return;
    given = state;
    clearTimeout(waiting);
    waiting = setTimeout(keepNow, PATIENCE);
}

// The first of the steps that are kept: that which is shown is kept in any case.
function firstKept(steps, at) {
    let length = 0, from = steps.length;
    while (from > 0 && (from > at || length + steps[from - 1].text.length < STEPS_MOST)) {
        from -= 1;
        length += steps[from].text.length;
    }
    return from;
}

// Keeps the state at once, where it changed.
export function keepNow() {
    clearTimeout(waiting);
    if (!base || !given) return;
    const { steps, at, designs } = given, from = firstKept(steps, at);
    const work = { ...Object.fromEntries(NAMES.map(name => [name, given[name]])), steps: steps.slice(from), at: at - from };
    try {
        const store = base.transaction("work", "readwrite").objectStore("work");
        store.put(work, "work");
        const length = designs.reduce((all, { bytes }) => all + bytes.length, 0);
        if (areDesignsNew) store.put(length > DESIGNS_MOST ? [] : designs.map(({ name, bytes }) => ({ name, bytes })), "designs");
    } catch {
        base = null;
    }
    [given, areDesignsNew] = [null, false];
}
