// Names and kinds of files, and files as texts, bytes and pictures.
import { Refused } from "./refused.js";

export const FORMATS = ["dst", "exp", "pec", "pes", "lst"];
// The kinds of files by their endings, and the greatest length of each in bytes. That of stitch files is the programs' own.
const KINDS = { svg: "svg", rw: "drawing", txt: "drawing", cert: "certificate", ...Object.fromEntries(FORMATS.map(ending => [ending, "design"])) };
const MOST = { svg: 8e6, drawing: 4e6, design: 1 << 26, certificate: 1 << 26 };
const encoder = new TextEncoder(), decoder = new TextDecoder();

// The ending of a name, in small letters.
export function endingOf(name) {
    const at = name.lastIndexOf(".");
    return at < 0 ? "" : name.slice(at + 1).toLowerCase();
}

// A name without its ending, as it can stand in other names.
export function baseOf(name) {
    const base = name.replace(/^.*[/\\]/, "").replace(/\.[^.]*$/, "").replace(/[^\p{L}\p{N}._ -]/gu, "_").trim();
    return base || "drawing";
}

// The kind of a file: svg, design, certificate or drawing; undefined for others.
export function kindOfFile(name) {
    return KINDS[endingOf(name)];
}

export function bytesOfText(words) {
    return encoder.encode(words);
}

export function textOfBytes(bytes) {
    return decoder.decode(bytes);
}

// A file that was chosen or dropped, with its bytes. Its kind and its length are asked before a byte is read.
export async function readFile(file) {
    const kind = kindOfFile(file.name);
    if (!kind) throw new Refused("file.unknown", { name: file.name });
    if (file.size > MOST[kind]) throw new Refused("file.large", { name: file.name, size: lengthText(file.size), most: lengthText(MOST[kind]) });
    const bytes = new Uint8Array(await file.arrayBuffer().catch(() => {
        throw new Refused("file.unread", { name: file.name });
    }));
    if (endingOf(file.name) === "txt" && !/^(?:\s|#.*\n)*redwork[ \t]/.test(textOfBytes(bytes.slice(0, 4096)))) {
        throw new Refused("file.noDrawing", { name: file.name });
    }
    if (kind === "drawing" && bytes.includes(0)) throw new Refused("file.noText", { name: file.name });
    return { name: file.name, bytes };
}

// Files that were chosen or dropped, and why others of them can't be read.
export async function readFiles(files) {
    const found = await Promise.all([...files].map(file => readFile(file).catch(why => {
        if (why instanceof Refused) return why;
        throw why;
    })));
    return { files: found.filter(one => !(one instanceof Refused)), refusals: found.filter(one => one instanceof Refused).map(why => why.message) };
}

const TYPES = { svg: "image/svg+xml", zip: "application/zip", rw: "text/plain", cert: "text/plain", lst: "text/plain" };

// An address within the page for a file.
export function addressOf({ name, bytes }) {
    return URL.createObjectURL(new Blob([bytes], { type: TYPES[endingOf(name)] ?? "application/octet-stream" }));
}

// Hands a file to the browser, to be saved.
export function download(file) {
    const link = document.createElement("a"), address = addressOf(file);
    link.href = address;
    link.download = file.name;
    document.body.append(link);
    link.click();
    link.remove();
    setTimeout(() => URL.revokeObjectURL(address), 60000);
}

// A number of bytes as a person reads it.
export function lengthText(count) {
    return count < 10000 ? `${count} B` : count < 1e6 ? `${(count / 1000).toFixed(0)} kB` : `${(count / 1e6).toFixed(0)} MB`;
}
