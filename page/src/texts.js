// The English texts of the page, which stand in texts.json alone.
import texts from "./texts.json";

// The text of a key, with each {name} replaced by the value of that name.
export function text(key, values = {}) {
    const found = texts[key];
    if (found === undefined) throw new Error(`there is no text ${key}`);
    return found.replace(/\{(\w+)\}/g, (_, name) => String(values[name]));
}
