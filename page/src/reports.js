// The lines that programs print, as values.

// The words and numbers of a line of a report by name, as `block 1 piece 2 lines 6`.
export function valuesOf(line) {
    const words = line.split(" "), values = {};
    for (let k = 0; k + 1 < words.length; k += 2) values[words[k]] = Number(words[k + 1]);
    return values;
}

// The line of a text that a refusal names, or null.
export function refusedLine(err) {
    const found = /: line (\d+): /.exec(err);
    return found && Number(found[1]);
}
