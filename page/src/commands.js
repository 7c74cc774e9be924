// The commands of the programs, over files in memory. Each gives the reply of the run.
import { bytesOfText } from "./files.js";

let runner;

export function useRunner(given) {
    runner = given;
}

export function hasProgram(name) {
    return runner.programs.has(name);
}

// Runs a program on files, and adds what was written by name. A digest and a signal that ends the run are options.
export async function run(program, words, files, options) {
    const reply = await runner.run(program, words.map(String), files, options);
    return { ...reply, isDone: reply.outcome === 0, file: name => reply.files.find(file => file.name === name) };
}

// Runs a task of the worker.
export async function task(name, given, signal) {
    const { result, err } = await runner.task(name, given, signal);
    if (err) throw new Error(err);
    return result;
}

export function drawingFile(base, words) {
    return { name: `${base}.rw`, bytes: bytesOfText(words) };
}

// The report on a drawing and its places, with the distance in tenths of a millimetre at which lines nearly meet.
export function look(base, words, gap, signal) {
    return run("stitch_drawing", ["look", `${base}.rw`, gap], [drawingFile(base, words)], { digest: "look", signal });
}

// What the picture of a drawing shows.
export function readDrawing(base, words, signal) {
    return run("stitch_drawing", ["edit", `${base}.rw`, "cut.rw", "shift=0,0"], [drawingFile(base, words)], { digest: "drawing", signal });
}

// The drawing after a command, given as its program and its words before and after the names.
export function changedDrawing(base, words, { program = "stitch_drawing", before, after = [] }, signal) {
    return run(program, [...before, `${base}.rw`, `${base}-new.rw`, ...after], [drawingFile(base, words)], { digest: "words", signal });
}

// The design of a drawing and its certificate, by `route` or by `double`.
export async function sew(way, base, words, signal) {
    const names = { design: `${base}.pes`, certificate: `${base}.cert` };
    const reply = await run("stitch", [way, `${base}.rw`, names.design, names.certificate], [drawingFile(base, words)], { signal });
    return { ...reply, design: reply.file(names.design), certificate: reply.file(names.certificate) };
}

// A picture of a file, with the hoop's sides in tenths of a millimetre where they are given; or of a drawing's proof.
export async function picture(files, options, signal) {
    const out = "picture.svg", words = [...files.map(({ name }) => name), out, ...options];
    const reply = await run("stitch_picture", words, files, { signal });
    return { ...reply, picture: reply.file(out) };
}

export function show(file, signal) {
    return run("stitch", ["show", file.name], [file], { signal });
}

// The report on a design, with its places by kind.
export function lookAtDesign(file, signal) {
    return run("stitch_design", ["look", file.name], [file], { digest: "design", signal });
}

export function check(drawing, design, certificate, signal) {
    return run("stitch", ["check", drawing.name, design.name, certificate.name], [drawing, design, certificate], { signal });
}

export function fit(file, [width, height], signal) {
    return run("stitch", ["hoop", file.name, width, height], [file], { signal });
}

// A file in another format.
export async function convert(file, name, refits, signal) {
    if (file.name === name) return { isDone: true, outcome: 0, out: "", err: "", made: file };
    const reply = await run("stitch", ["convert", file.name, name, ...refits], [file], { signal });
    return { ...reply, made: reply.file(name) };
}

// A design after edits, by `stitch` or by `stitch_design`.
export async function edit(program, file, name, edits, signal) {
    const reply = await run(program, ["edit", file.name, name, ...edits], [file], { signal });
    return { ...reply, made: reply.file(name) };
}

// The drawing of what a design sews.
export function trace(file, base) {
    return run("stitch", ["trace", file.name, `${base}.rw`], [file], { digest: "words" });
}

// The sample drawing of a number.
export function sample(number) {
    return run("stitch", ["sample", number, "sample.rw"], [], { digest: "words" });
}

// The acts of a design, which the page can show.
export function actsOfFile(file, signal) {
    return run("stitch", ["convert", file.name, `${file.name}.lst`], [file], { digest: "acts", signal });
}
