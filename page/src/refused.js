// What a user's file or number has wrong: a text of texts.json by its key, with its values.
import { text } from "./texts.js";

export class Refused extends Error {
    constructor(key, values = {}) {
        super(text(key, values));
        Object.assign(this, { key, values });
    }
}
