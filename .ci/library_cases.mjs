// Tests page/stitch.js in Node, in a folder that has it, the module, and the blocks of the page on embedding: library_cases.mjs HOME.
import { spawnSync } from "node:child_process";
import { mkdtempSync, readFileSync, readdirSync, rmSync, writeFileSync } from "node:fs";
import { tmpdir } from "node:os";
import { Worker as Thread, isMainThread, parentPort, workerData } from "node:worker_threads";

// What a page has and Node hasn't: a worker that is a module, and files that are fetched.
if (!isMainThread) {
    globalThis.self = { postMessage: (data, moved) => parentPort.postMessage(data, moved) };
    await import(`./${workerData}`);
    parentPort.on("message", data => self.onmessage({ data }));
} else await main();

async function main() {
    const { Runner, Stitch, Stopped, packTask, unpackReply } = await import("./stitch.js");
    let failed = 0;
    const same = (what, found, wanted) => {
        if (JSON.stringify(found) === JSON.stringify(wanted)) return;
        failed += 1;
        console.error(`library: ${what}\n  wanted ${JSON.stringify(wanted)?.slice(0, 400)}\n  found  ${JSON.stringify(found)?.slice(0, 400)}`);
    };
    globalThis.fetch = async name => new Response(readFileSync(name));
    globalThis.Worker = class {
        constructor(name) {
            this.thread = new Thread(new URL(import.meta.url), { workerData: name });
            this.thread.on("message", data => this.onmessage({ data }));
        }
        postMessage(data) { this.thread.postMessage(data); }
        terminate() { this.thread.terminate(); }
    };

    const home = process.argv[2], text = bytes => Buffer.from(bytes).toString("latin1");
    const byProgram = (program, words, files) => {
        const cwd = mkdtempSync(`${tmpdir()}/library`);
        for (const { name, bytes } of files) writeFileSync(`${cwd}/${name}`, bytes);
        const ran = spawnSync(`${process.env.STITCH_BIN || `${home}/crates/${program}/out`}/${program}`, words, { cwd, encoding: "utf8" });
        const left = readdirSync(cwd).filter(name => files.every(file => file.name !== name)).sort().map(name => [name, text(readFileSync(`${cwd}/${name}`))]);
        rmSync(cwd, { recursive: true });
        return [ran.status, ran.stdout, ran.stderr, left];
    };
    const plain = ({ outcome, out, err, files }) => [outcome, out, err, files.map(({ name, bytes }) => [name, text(bytes)]).sort()];
    const stitch = await Stitch.load(fetch("stitch.wasm"));
    same("programs", [...stitch.programs].sort(), ["stitch", "stitch_design", "stitch_drawing", "stitch_picture"]);
    for (const name of readdirSync(`${home}/examples`).filter(name => /\.(rw|exp)$/.test(name))) {
        const files = [{ name, bytes: readFileSync(`${home}/examples/${name}`) }];
        for (const [program, ...words] of [["stitch", "route", name, "b.pes", "b.cert"], ["stitch_drawing", "look", name], ["stitch_picture", name, "b.svg"],
            ["stitch_design", "threads", name]]) same(words, plain(stitch.run(program, words, files)), byProgram(program, words, files));
    }
    const whole = packTask(["ab"], [{ name: "c", bytes: new Uint8Array([7, 8, 9]) }]);
    same("a task", [...whole], [1, 0, 0, 0, 2, 0, 0, 0, 97, 98, 1, 0, 0, 0, 1, 0, 0, 0, 99, 3, 0, 0, 0, 7, 8, 9]);
    const reply = new Uint8Array([1, 0, 0, 0, 0, 0, 0, 0, ...whole.slice(4)]);
    same("a reply", plain(unpackReply(reply)), [1, "", "ab", [["c", "\x07\x08\x09"]]]);
    for (let length = 0; length < reply.length; length += 1) {
        let why = null;
        try { unpackReply(new Uint8Array(reply.buffer, 0, length)); } catch (thrown) { why = thrown.name; }
        same(`${length} bytes of a reply`, why, "RangeError");
    }

    writeFileSync("a.lst", "stitch-list 1\nlabel []\nblock 5\nneedle 0 0\nneedle 30 0\nend\n");
    writeFileSync("worker.js", 'import { serve } from "./stitch.js"; serve();');
    const shown = await import("./shown.js"), list = [{ name: "a.lst", bytes: readFileSync("a.lst") }];
    same("what the page shows", [plain(shown.reply), plain(shown.shown)], [byProgram("stitch", ["convert", "a.lst", "a.dst"], list),
        byProgram("stitch", ["show", "a.lst"], list)]);

    writeFileSync("own.js", `import { serve } from "./stitch.js";
        serve({ tasks: { twice: number => 2 * number, wait: () => { for (;;); } }, digests: { size: ({ out }) => ({ size: out.length }) } });`);
    let changes = 0;
    const runner = new Runner(stitch.module, () => new Worker("own.js"), () => { changes += 1; }), stopping = new AbortController();
    same("a task of the page", (await runner.task("twice", 4)).result, 8);
    same("a digest", (await runner.run("stitch", ["show", "a.lst"], list, { digest: "size" })).size, shown.shown.out.length);
    same("a refusal has none", (await runner.run("stitch", ["show", "b.lst"], list, { digest: "size" })).err, "stitch: cannot read b.lst\n");
    same("a task that there isn't", [(await runner.task("thrice", 4)).outcome, changes], [101, 8]);
    const waits = [runner.task("wait", 0, stopping.signal), runner.task("twice", 5)].map(run => run.then(({ result }) => result, why => why instanceof Stopped));
    stopping.abort();
    same("a run that is stopped, and the next one", await Promise.all(waits), [true, 10]);
    console.log(failed ? `library: ${failed} failed` : "library: page/stitch.js as wanted");
    process.exit(failed ? 1 : 0);
}
