// The acts of a design, from its stitch list: what the page shows of it, command by command.

// The kinds of acts, each known by its index here.
export const KINDS = ["needle", "float", "trim", "stop"];

// The letters with which the lines of a stitch list begin that are acts; a block begins after a stop.
const NEEDLE = 110, FLOAT = 102, TRIM = 116, BLOCK = 98, [LINE_END, SPACE, MINUS, ZERO] = [10, 32, 45, 48];

// The acts of a stitch list's bytes as columns, and the threads of its blocks. A trim and a stop have the point of the needle before
// them. The list may have a million lines, so that no text is made of it.
export function actsOf(bytes) {
    const threads = [], count = bytes.reduce((all, byte) => all + (byte === LINE_END), 0);
    const acts = { kinds: new Uint8Array(count), xs: new Int32Array(count), ys: new Int32Array(count), blocks: new Uint32Array(count) };
    let length = 0, x = 0, y = 0, at = 0;
    const add = (kind, block) => {
        [acts.kinds[length], acts.xs[length], acts.ys[length], acts.blocks[length]] = [KINDS.indexOf(kind), x, y, block];
        length += 1;
    };
    // The number after the next space.
    const number = () => {
        while (bytes[at] !== SPACE && bytes[at] !== LINE_END) at += 1;
        const isNegative = bytes[at + 1] === MINUS;
        let value = 0;
        for (at += isNegative ? 2 : 1; bytes[at] >= ZERO; at += 1) value = 10 * value + bytes[at] - ZERO;
        return isNegative ? -value : value;
    };
    for (let line = 0; at < bytes.length; line += 1) {
        const letter = line < 2 ? LINE_END : bytes[at];
        if (letter === BLOCK) {
            if (threads.length) add("stop", threads.length - 1);
            threads.push(number());
        } else if (letter === NEEDLE || letter === FLOAT) {
            [x, y] = [number(), number()];
            add(letter === NEEDLE ? "needle" : "float", threads.length - 1);
        } else if (letter === TRIM) {
            add("trim", threads.length - 1);
        }
        at = bytes.indexOf(LINE_END, at) + 1 || bytes.length;
    }
    for (const name of Object.keys(acts)) acts[name] = acts[name].slice(0, length);
    return { ...acts, threads, extent: extentOfActs(acts) };
}

// The least and the greatest x and y of the needles and floats, or null.
function extentOfActs({ kinds, xs, ys }) {
    const extent = [Infinity, Infinity, -Infinity, -Infinity];
    kinds.forEach((kind, k) => {
        if (kind > 1) return;
        extent[0] = Math.min(extent[0], xs[k]);
        extent[1] = Math.min(extent[1], ys[k]);
        extent[2] = Math.max(extent[2], xs[k]);
        extent[3] = Math.max(extent[3], ys[k]);
    });
    return extent[0] <= extent[2] ? extent : null;
}
