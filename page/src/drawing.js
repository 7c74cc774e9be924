// The text of a drawing as blocks of lines, for the page to show. What is wrong with a drawing the programs say.

// The blocks of a text: of each its thread, its lines as lists of points, its starts and its ends.
export function blocksOf(words) {
    const blocks = [];
    for (const line of words.split("\n")) {
        const [kind, ...rest] = line.trim().split(/[ \t]+/), numbers = rest.map(Number);
        if (kind === "color") blocks.push({ thread: numbers[0], lines: [], starts: [], ends: [] });
        if (!blocks.length) continue;
        if (kind === "line") blocks.at(-1).lines.push(pairs(numbers));
        if (kind === "start") blocks.at(-1).starts.push(numbers);
        if (kind === "end") blocks.at(-1).ends.push(numbers);
    }
    return blocks;
}

function pairs(numbers) {
    return Array.from({ length: numbers.length >> 1 }, (_, k) => [numbers[2 * k], numbers[2 * k + 1]]);
}

// The longest step of a drawing, in tenths of a millimetre.
export function stepOf(words) {
    return Number(/^[ \t]*step[ \t]+(\d+)/m.exec(words)?.[1] ?? 25);
}

// The junctions of a block whose lines are cut where they meet: the ends of lines, each with the number of those that end there.
export function junctionsOf({ lines }) {
    const degrees = new Map();
    for (const line of lines) {
        for (const point of [line[0], line.at(-1)]) {
            const key = point.join(), found = degrees.get(key) ?? { point, degree: 0 };
            degrees.set(key, { point, degree: found.degree + 1 });
        }
    }
    return [...degrees.values()];
}

// Whether a junction is odd. A closing line from a given end back to a given start counts too.
export function isOdd(block, { point, degree }) {
    const key = point.join(), [starts, ends] = [block.starts, block.ends].map(list => list.some(one => one.join() === key));
    return (degree + (starts !== ends && block.starts.length && block.ends.length ? 1 : 0)) % 2 === 1;
}

// The pieces of all blocks whose lines are cut: of each the point where it begins.
export function piecesOf(blocks) {
    return blocks.flatMap(block => {
        const above = new Map();
        const top = key => {
            while (above.has(key)) key = above.get(key);
            return key;
        };
        for (const line of block.lines) {
            const [one, other] = [top(line[0].join()), top(line.at(-1).join())];
            if (one !== other) above.set(one, other);
        }
        const begins = new Map();
        const given = new Map([...block.ends, ...block.starts].map(point => [top(point.join()), point]));
        for (const line of block.lines) {
            const key = top(line[0].join());
            if (!begins.has(key)) begins.set(key, given.get(key) ?? line[0]);
        }
        return [...begins.values()];
    });
}

// The least and the greatest x and y of the points of blocks.
export function extentOf(blocks) {
    const extent = [Infinity, Infinity, -Infinity, -Infinity];
    for (const { lines } of blocks) {
        for (const line of lines) {
            for (const [x, y] of line) {
                extent[0] = Math.min(extent[0], x);
                extent[1] = Math.min(extent[1], y);
                extent[2] = Math.max(extent[2], x);
                extent[3] = Math.max(extent[3], y);
            }
        }
    }
    return extent;
}

// The text of a drawing with all lengths and points multiplied, rounded to tenths of a millimetre. Points that become the same as
// the one before are left out, and so are lines of a single point. The longest step and all comments stay.
export function scaledText(words, by) {
    return words.split("\n").map(line => {
        const found = /^([ \t]*(line|start|end)[ \t]+)(.*)$/.exec(line);
        if (!found) return line;
        const points = pairs(found[3].trim().split(/[ \t]+/).map(part => Math.round(Number(part) * by)));
        const left = points.filter((point, k) => k === 0 || point[0] !== points[k - 1][0] || point[1] !== points[k - 1][1]);
        return found[2] === "line" && left.length < 2 ? null : found[1] + left.map(point => point.join(" ")).join(" ");
    }).filter(line => line !== null).join("\n");
}
