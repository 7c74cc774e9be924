// What a conversion loses, after the table of docs/FORMATS.md.
const OF_TARGET = { dst: ["threads"], exp: ["threads", "label", "end"], pec: [], pes: [], lst: [] };
const HAS = {
    dst: ["label", "end", "moves", "header"], exp: ["moves"], pec: ["threads", "label", "end", "moves", "header"],
    pes: ["threads", "label", "end", "moves", "header"], lst: ["threads", "label", "end"],
};

// The things of a file of one format that a file of another format doesn't have.
export function lossesOf(from, to) {
    return HAS[from].filter(what => ["moves", "header"].includes(what) || OF_TARGET[to].includes(what));
}
