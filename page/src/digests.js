// What the page shows of long replies, made in the worker: a reply may have a million lines.
import { actsOf } from "./design.js";
import { blocksOf, extentOf, isOdd, junctionsOf, piecesOf } from "./drawing.js";
import { textOfBytes } from "./files.js";
import { valuesOf } from "./reports.js";

// Of each kind of places so many are listed.
const LISTED = 200;
// The lines of a report of `look` that are places: where two lines meet or nearly meet, and where a line has short stitches.
const MEETING = /^block (?<block>\d+) line (?<line>\d+)(?: and line (?<met>\d+))? at (?<x>-?\d+) (?<y>-?\d+): (?<what>[a-z ]+?)(?:, (?<apart>\d+) from line (?<beside>\d+)| from [-\d ]+ to [-\d ]+)?$/;
const SHORT = /^block (?<block>\d+) line (?<line>\d+): (?<count>\d+) stitch(?:es)? shorter than half a step, the first at (?<x>-?\d+) (?<y>-?\d+), shortest (?<shortest>\d+), longest (?<longest>\d+)$/;
// The places of a report of `stitch_design look`.
const DESIGN_PLACE = /^(?:(?<unit>command|piece|block|stop) (?<at>\d+): )?(?<what>stitch of|float of|\d+ needles in one hole|not tied at its start|not tied at its end|no needle at all|no needle|the frame moves by).*$/;

const linesOf = out => out.trimEnd().split("\n");

// Items by their kind, in the order in which the kinds come: the number of each, and the first items.
function byKind(items) {
    const kinds = new Map();
    for (const item of items) {
        const kind = kinds.get(item.what) ?? { what: item.what, count: 0, items: [] };
        kind.count += 1;
        if (kind.items.length < LISTED) kind.items.push(item);
        kinds.set(item.what, kind);
    }
    return [...kinds.values()];
}

// The place that a line of the report names, or null.
function placeOf(line) {
    const found = (MEETING.exec(line) ?? SHORT.exec(line))?.groups;
    return found ? { ...found, what: found.what ?? "short stitches", other: found.met ?? found.beside, point: [+found.x, +found.y],
        count: 1, stitches: found.count } : null;
}

// Places with those that differ by the point alone as one.
function merged(places) {
    const found = new Map();
    for (const place of places) {
        const key = [place.block, place.line, place.other, place.what].join();
        if (found.has(key)) found.get(key).count += 1;
        else found.set(key, place);
    }
    return [...found.values()];
}

// The report of `look` on a drawing: its size, its pieces, its places by kind, and its sums.
function look({ out }) {
    const lines = linesOf(out), places = lines.map(placeOf).filter(Boolean);
    const kinds = byKind(merged(places)).map(kind => ({ ...kind, all: places.filter(({ what }) => what === kind.what).length }));
    return { size: lines[0].split(" ").slice(1, 3).map(Number), kinds, sums: valuesOf(lines.at(-1)),
        pieces: lines.filter(line => /^block \d+ piece/.test(line)).map(valuesOf) };
}

const pathOf = line => `M${line.map(point => point.join(" ")).join("L")}`;

// What the picture of a drawing shows, whose lines are cut where they meet.
function drawing({ files }) {
    const blocks = blocksOf(textOfBytes(files[0].bytes)), points = blocks.flatMap(({ lines }) => lines.flat(2));
    return { extent: extentOf(blocks), begins: piecesOf(blocks), points: Int32Array.from(points), blocks: blocks.map(block => ({
        thread: block.thread, path: block.lines.map(pathOf).join(""), starts: block.starts, ends: block.ends,
        junctions: junctionsOf(block).map(junction => [...junction.point, isOdd(block, junction)]) })) };
}

// The acts of a stitch list.
function acts({ files }) {
    return { acts: actsOf(files[0].bytes) };
}

// The report of `look` on a design: its size, the counts of its blocks, and its places by kind.
function design({ out }) {
    const lines = linesOf(out), blocks = lines.map(line => /^block \d+ thread (?<thread>\d+) .*needles (?<needles>\d+) length (?<length>\d+)/
        .exec(line)?.groups).filter(Boolean);
    const places = lines.slice(2 + blocks.length, -1).map(line => ({ line, ...DESIGN_PLACE.exec(line)?.groups })).filter(({ what }) => what)
        .map(place => ({ ...place, what: place.what.replace(/^\d+ /, "") }));
    return { size: lines[0].split(" ").slice(1, 3).map(Number), blocks, kinds: byKind(places), places: places.length };
}

// A file that was written, as a text beside its bytes.
function words({ out, files }) {
    return { out, text: textOfBytes(files[0].bytes) };
}


export const DIGESTS = { look, drawing, acts, design, words };
