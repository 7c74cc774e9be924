// The runner of the page: what a run fails of is said in the words of the page.
import { Runner } from "../stitch.js";
import { text } from "./texts.js";

export class PageRunner extends Runner {
    // The source is that of the worker.
    constructor(module, source, changed) {
        const url = URL.createObjectURL(new Blob([source], { type: "text/javascript" }));
        super(module, () => new Worker(url), changed);
    }

    resultOf(reply, { program }) {
        const why = reply.failed ?? (reply.outcome > 4 && text(`run.${reply.outcome}`));
        return why ? { ...reply, outcome: 4, out: "", err: text("run.failed", { program, why }), files: [] } : reply;
    }
}
