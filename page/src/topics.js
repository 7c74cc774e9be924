// The topics: what the programs say of what is open. The store alone asks for them.
import { actsOfFile, changedDrawing, check, convert, drawingFile, edit, fit, hasProgram, look, lookAtDesign, picture, readDrawing, run, sew, show } from "./commands.js";
import { doneSteps } from "./actions.js";
import { SHOWN, examples } from "./examples.js";
import { bytesOfText, endingOf } from "./files.js";
import { STEPS } from "./ready.js";
import { refusedLine, valuesOf } from "./reports.js";
import { drawn, known, state, topic } from "./state.js";
import { drawingOfSvg } from "./svg_files.js";
import { refusalOf, saidOf } from "./words.js";

// The edits of stitch_design that the page offers, in the order in which they are done: of each that takes a number the least,
// the greatest and the first one, and whether these are tenths of a millimetre. Threads are tied last, since a merge would take
// short ties away.
export const EDITS = [{ name: "drop-empty" }, { name: "centre" }, { name: "merge", least: 1, most: 100, first: 5, isLength: true },
    { name: "bean", least: 1, most: 5, first: 1 }, { name: "tie", least: 8, most: 18, first: 10, isLength: true }];

// The edits that are kept, with numbers from their least to their greatest: an older page had others.
export function editsInRange(edits) {
    const inRange = ({ least, most }, given) => least && given ? Math.min(Math.max(given, least), most) : given;
    return Object.fromEntries(EDITS.filter(({ name }) => name in edits).map(one => [one.name, inRange(one, edits[one.name])]));
}

const refused = ({ err }) => ({ refused: refusalOf(err), line: refusedLine(err) });
const ofDrawing = () => drawn() && [drawn().base, drawn().text];

topic("report", {
    of: () => drawn() && [drawn().base, drawn().text, state.gap],
    ask: async (signal, base, words, gap) => {
        const seen = await look(base, words, gap, signal);
        if (!seen.isDone) return refused(seen);
        const read = await readDrawing(base, words, signal);
        return read.isDone ? { ...seen, ...read } : refused(read);
    },
});

// The first step that would mend a place, of those that weren't done and aren't refused.
topic("hint", {
    needs: () => ["report"],
    of: () => known("report")?.kinds ? [drawn(), known("report"), state.tried.join()] : null,
    ask: async (signal, step, report, tried) => {
        const done = doneSteps(), found = report.kinds.map(({ what }) => what);
        for (const { name, before, mends } of STEPS) {
            if (!mends.some(what => found.includes(what)) || done.includes(name) || tried.split(",").includes(name)) continue;
            const made = await changedDrawing(step.base, step.text, { before: before(state) }, signal);
            if (made.isDone && made.text !== step.text) return { name };
        }
        return null;
    },
});

for (const way of ["route", "double"]) {
    topic(way, {
        of: ofDrawing,
        ask: async (signal, base, words) => {
            const made = await sew(way, base, words, signal);
            return made.isDone ? { ...made, lines: made.out.trimEnd().split("\n").map(valuesOf) } : refused(made);
        },
    });
}

// What the best ends of each piece would save: the penetrations without and with them.
topic("free", {
    of: ofDrawing,
    ask: async (signal, base, words) => {
        const made = await changedDrawing(base, words, { before: ["free"] }, signal);
        const { groups } = made.isDone && /penetrations (?<from>\d+) to (?<to>\d+) pieces \d+\s*$/.exec(made.out) || {};
        return groups ? { from: +groups.from, to: +groups.to } : null;
    },
});

// The edits that are chosen for a design of so many blocks, as words of `stitch` and of `stitch_design`.
function finishingWords({ turn, mirror, threads, edits }, blocks) {
    const plain = [...turn ? [`turn=${turn}`] : [], ...mirror ? [`mirror=${mirror}`] : [],
        ...Object.entries(threads).filter(([block]) => block <= blocks).map(([block, thread]) => `thread=${block},${thread}`)];
    const chosen = EDITS.filter(({ name }) => edits[name]).map(({ name }) => edits[name] === true ? name : `${name}=${edits[name]}`);
    return { plain, more: hasProgram("stitch_design") ? chosen : [] };
}

// The design of the chosen way as it was sewn (`made`), and as it is for a machine, after the edits that are chosen.
topic("design", {
    needs: () => [state.way],
    of: () => drawn() && [drawn().base, known(state.way), state.finish],
    ask: async (signal, base, made, finish) => {
        if (made.refused) return made;
        const { plain, more } = finishingWords(finish, made.lines.at(-2)?.block ?? 0);
        let design = made.design;
        const said = [];
        for (const [program, words, name] of [["stitch", plain, `${base}-edited.pes`], ["stitch_design", more, `${base}-machine.pes`]]) {
            if (!words.length) continue;
            const reply = await edit(program, design, name, words, signal);
            if (!reply.isDone) return { ...refused(reply), made };
            said.push(saidOf(reply.out));
            design = reply.made;
        }
        return { made, said, isTied: more.some(word => /^tie(=|$)/.test(word)), isEdited: said.length > 0,
            design: { name: `${base}.pes`, bytes: design.bytes } };
    },
});

// Whether the design for the machine fits the hoop.
topic("fit", {
    needs: () => ["design"],
    of: () => state.hoop && known("design")?.design ? [known("design"), state.hoop] : null,
    ask: async (signal, { design }, hoop) => {
        const reply = await fit(design, hoop, signal);
        return { fits: reply.isDone, words: reply.isDone ? saidOf(reply.out) : refusalOf(reply.err) };
    },
});

// What a shop would look at in the design for the machine.
topic("places", {
    needs: () => ["design"],
    of: () => hasProgram("stitch_design") && known("design")?.design ? [known("design")] : null,
    ask: async (signal, { design }) => {
        const reply = await lookAtDesign(design, signal);
        return reply.isDone ? reply : refused(reply);
    },
});

// The files that the picture that is chosen is drawn of, and whether the hoop is in it; null where there are none.
function pictured() {
    const made = known("design"), kind = state.picture;
    if (kind === "double" || kind === "proof") {
        const sewn = known(kind === "double" ? "double" : "route");
        if (!sewn?.isDone) return null;
        return kind === "double" ? [sewn.design] : [drawn(), sewn.certificate];
    }
    return made?.design ? [kind === "machine" ? made.design : made.made.design] : null;
}

topic("picture", {
    needs: () => ["design", ...state.picture === "double" ? ["double"] : [], ...state.picture === "proof" ? ["route"] : []],
    of: () => drawn() && pictured() && [state.picture, state.hoop, ...pictured()],
    ask: async (signal, kind, hoop, first, certificate) => {
        const sources = kind === "proof" ? [drawingFile(first.base, first.text), certificate] : [first];
        const reply = await picture(sources, kind === "proof" ? [] : hoop ?? [], signal);
        return reply.isDone ? { kind, bytes: reply.picture.bytes } : refused(reply);
    },
});

// What `check` says of a design. Ties are taken away where it says no, and a design that changes by that is judged anew.
async function verdictOf(drawing, design, certificate, signal) {
    const first = await check(drawing, design, certificate, signal);
    if (first.isDone || !hasProgram("stitch_design")) return { isYes: first.isDone, why: first.err.trim() };
    const name = `bare.${endingOf(design.name)}`, bare = await run("stitch_design", ["edit", design.name, name, "bare"], [design], { signal });
    const one = `whole.${endingOf(design.name)}`, made = bare.isDone && bare.file(name);
    const isSame = !made || (await run("stitch_design", ["compare", one, name], [{ ...design, name: one }, made], { signal })).isDone;
    if (isSame) return { isYes: false, why: first.err.trim() };
    const again = await check(drawing, made, certificate, signal);
    return { isYes: again.isDone, isBare: true, why: again.err.trim() };
}

topic("verdict", {
    of: () => {
        const { drawing, design, certificate } = state.checked;
        return drawing && design && certificate ? [drawing, design, certificate] : null;
    },
    ask: (signal, ...files) => verdictOf(...files, signal),
});

topic("compared", {
    of: () => state.compared.every(Boolean) ? state.compared : null,
    ask: async (signal, one, other) => {
        const names = [`a-${one.name}`, `b-${other.name}`];
        const reply = await run("stitch_design", ["compare", ...names], [{ ...one, name: names[0] }, { ...other, name: names[1] }], { signal });
        return { isSame: reply.isDone, why: refusalOf(reply.err) };
    },
});

// The files that can be saved, each with what it is: the design for the machine first.
topic("files", {
    needs: () => ["design"],
    of: () => drawn() && [drawn(), known("design"), state.format, state.isSplit, state.hoop],
    ask: async (signal, { base, text: words }, done, format, isSplit, hoop) => {
        const drawing = drawingFile(base, words), found = [], faults = [];
        if (done.refused) return { files: [{ file: drawing, what: "keep.drawing" }], faults: [] };
        const { made, design, isEdited, isTied } = done, isLeast = state.way === "route";
        const add = async (source, name, what) => {
            const reply = await convert(source, name, isSplit ? ["--split"] : [], signal);
            if (!reply.isDone) return void faults.push(refusalOf(reply.err));
            const item = { file: { name, bytes: reply.made.bytes }, what };
            found.push(item);
            return item;
        };
        const machine = isEdited && await add(design, `${base}-machine.${format}`, isTied ? "keep.tied" : "keep.edited");
        const sewn = await add(made.design, `${base}.${format}`, isLeast ? "keep.design" : "keep.double");
        found.push({ file: made.certificate, what: isLeast ? "keep.certificate" : "keep.walks" }, { file: drawing, what: "keep.drawing" });
        for (const item of isLeast ? [machine, sewn] : []) {
            if (item) item.verdict = await verdictOf(drawing, item.file, made.certificate, signal);
        }
        const pictures = [["keep.picture", `${base}-picture.svg`, [design], hoop ?? []],
            ...isLeast ? [["keep.proof", `${base}-proof.svg`, [drawing, made.certificate], []]] : []];
        for (const [what, name, sources, options] of pictures) {
            const reply = await picture(sources, options, signal);
            if (reply.isDone) found.push({ file: { name, bytes: reply.picture.bytes }, what });
        }
        return { files: found, faults };
    },
});

// The stitch file that is looked at.
export function lookedAt() {
    return state.designs.find(({ name }) => name === state.design) ?? state.designs[0] ?? null;
}

// What `show` and `look` say of each stitch file that is open. What was said of a file is kept with it.
const seen = new WeakMap();
topic("table", {
    of: () => state.designs.length ? [state.designs] : null,
    ask: async (signal, designs) => {
        for (const file of designs) {
            if (seen.has(file)) continue;
            const shown = await show(file, signal), looked = shown.isDone && hasProgram("stitch_design") ? await lookAtDesign(file, signal) : null;
            seen.set(file, shown.isDone ? { shown: shown.out.trimEnd().split("\n"), looked } : refused(shown));
        }
        return designs.map(file => seen.get(file));
    },
});

topic("seen", {
    needs: () => ["table"],
    of: () => lookedAt() && [lookedAt(), known("table"), state.hoop],
    ask: async (signal, file, all, hoop) => {
        const report = seen.get(file);
        if (report.refused) return report;
        const drawing = await picture([file], hoop ?? [], signal);
        return { ...report, picture: drawing.picture?.bytes };
    },
});

// The design that is played: a stitch file, or what is made of the drawing, as it was routed or for the machine.
export function playedFile() {
    if (state.played === "file") return lookedAt();
    const done = known("design");
    return done?.design ? state.played === "routed" ? done.made.design : done.design : null;
}

topic("acts", {
    needs: () => state.played === "file" ? [] : ["design"],
    of: () => playedFile() && [playedFile()],
    ask: async (signal, file) => {
        const reply = await actsOfFile(file, signal);
        return reply.isDone ? { file, ...reply } : refused(reply);
    },
});

// A pattern before and after, for the first screen: an example, and the thread that sews it.
topic("first", {
    of: () => drawn() ? null : [examples[SHOWN]],
    ask: async (signal, source) => {
        let { text: words } = await drawingOfSvg(source, {});
        for (const { before, isNeeded } of STEPS) {
            const made = isNeeded ? {} : await changedDrawing("first", words, { before: before(state) }, signal);
            words = made.text ?? words;
        }
        const sewn = await sew("route", "first", words, signal), after = await picture([sewn.design], ["plain", "size=480x360"], signal);
        return { before: bytesOfText(source), after: after.picture?.bytes };
    },
});
