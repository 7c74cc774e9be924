// Stitch for web pages: the programs of the module that page/wasm makes, run here or in a worker. docs/EMBEDDING.md has examples.

/**
 * @typedef {{ name: string, bytes: Uint8Array }} NamedFile A file: its name, and its content.
 * @typedef {{ outcome: number, out: string, err: string, files: NamedFile[] }} Reply What a run left: its outcome, which is the exit
 *     status where it is 0 to 4, what it printed and reported, and the files that it wrote or changed.
 */

// The bytes of a number, of which the low one is first.
const SIZE = 4;
// The bytes that are prepared for a reply: a number of them, more for each byte of the task, and a number that they don't exceed.
// A longer reply is made again, in as many bytes as it needs.
const ROOM = 1 << 25, ROOM_EACH = 48, ROOM_MOST = 1 << 27;
// A run takes up the memory of the one before, if that has at most so many bytes and didn't fail.
const KEPT_MOST = 1 << 28;

// The parts of a task: the count of arguments and each of them, the count of files, and of each its name and its content.
function partsOf(words, files) {
    const encoder = new TextEncoder();
    return [words.length, ...words.map(word => encoder.encode(word)), files.length,
        ...files.flatMap(({ name, bytes }) => [encoder.encode(name), bytes])];
}

// The bytes that the parts of a task take.
function lengthOf(parts) {
    return parts.reduce((all, part) => all + SIZE + (part.length ?? 0), 0);
}

// Packs the parts of a task where it is wanted.
function packParts(parts, packed) {
    const view = new DataView(packed.buffer, packed.byteOffset, packed.length);
    let at = 0;
    for (const part of parts) {
        view.setUint32(at, part.length ?? part, true);
        at += SIZE;
        if (part.length) packed.set(part, at);
        at += part.length ?? 0;
    }
}

/**
 * The packed task of these arguments and files.
 * @param {string[]} words
 * @param {NamedFile[]} files
 */
export function packTask(words, files) {
    const parts = partsOf(words, files), packed = new Uint8Array(lengthOf(parts));
    packParts(parts, packed);
    return packed;
}

/**
 * What a packed reply says. Bytes that are none throw a RangeError.
 * @param {Uint8Array} packed
 * @returns {Reply}
 */
export function unpackReply(packed) {
    const view = new DataView(packed.buffer, packed.byteOffset, packed.length), decoder = new TextDecoder();
    let at = 0;
    const number = () => {
        at += SIZE;
        return view.getUint32(at - SIZE, true);
    };
    const part = () => {
        const length = number();
        at += length;
        if (at > packed.length) throw new RangeError("the reply is cut off");
        return packed.slice(at - length, at);
    };
    const outcome = number(), [out, err] = [decoder.decode(part()), decoder.decode(part())], files = [];
    for (let left = number(); left; left -= 1) files.push({ name: decoder.decode(part()), bytes: part() });
    return { outcome, out, err, files };
}

/**
 * The names of the programs of a module.
 * @param {WebAssembly.Module} module
 */
function programsOf(module) {
    return WebAssembly.Module.exports(module).map(({ name }) => name).filter(name => name.endsWith("_run")).map(name => name.slice(0, -4));
}

/** The programs of a module, run here. A run without enough memory or stack throws, and later ones are as if it hadn't been. */
export class Stitch {
    /** @param {WebAssembly.Module} module */
    constructor(module) {
        this.module = module;
        this.programs = programsOf(module);
        /** @type {any} */
        this.kept = null;
    }

    /**
     * The programs of the bytes of a module, or of a response that has them.
     * @param {BufferSource | Response | PromiseLike<Response>} source
     */
    static async load(source) {
        const found = await source;
        return new Stitch(await WebAssembly.compile(found instanceof Response ? await found.arrayBuffer() : found));
    }

    /**
     * Runs a program over files.
     * @param {string} program
     * @param {string[]} words
     * @param {NamedFile[]} files
     */
    run(program, words, files) {
        const parts = partsOf(words, files), room = Math.min(ROOM + ROOM_EACH * lengthOf(parts), ROOM_MOST);
        const first = this.replyOf(program, parts, room);
        return typeof first === "number" ? this.replyOf(program, parts, first) : first;
    }

    // The reply of a program, with the memory that the run took, or the length that it needs where that is more than the room. The
    // files are copied once, into the memory.
    replyOf(program, parts, room) {
        const exports = this.kept ?? new WebAssembly.Instance(this.module, {}).exports;
        this.kept = null;
        const given = lengthOf(parts), at = placed(exports, given), to = placed(exports, room);
        packParts(parts, new Uint8Array(exports.memory.buffer, at, given));
        const length = Number(exports[`${program}_run`](BigInt(at), BigInt(given), BigInt(to), BigInt(room)));
        const memory = exports.memory.buffer.byteLength;
        const reply = length > room ? length : { ...unpackReply(new Uint8Array(exports.memory.buffer, to, length)), memory };
        for (const block of [to, at]) exports.stitch_free(BigInt(block));
        if (memory <= KEPT_MOST) this.kept = exports;
        return reply;
    }
}

// Places bytes in the memory of an instance, and returns where.
function placed(exports, length) {
    const at = Number(exports.stitch_alloc(BigInt(length)));
    if (!at) throw new RangeError("no memory");
    return at;
}

/**
 * Runs in a worker what a Runner sends: programs, and tasks of the page's own by their names. A digest is what is sent of a reply whose
 * outcome is 0, in place of its text and files.
 * @param {{ tasks?: Record<string, (given: any) => any>, digests?: Record<string, (reply: Reply) => object> }} own
 */
export function serve({ tasks = {}, digests = {} } = {}) {
    let stitch = null;
    const replyTo = ({ program, words, files, digest, task, given }) => {
        if (task) return { outcome: 0, result: tasks[task](given) };
        const reply = stitch.run(program, words, files);
        return digest && reply.outcome === 0 ? { outcome: 0, err: "", ...digests[digest](reply) } : reply;
    };
    self.onmessage = ({ data }) => {
        if (data.module) {
            stitch = new Stitch(data.module);
            return;
        }
        const started = performance.now(), sent = (reply, moved) => self.postMessage({ id: data.id,
            milliseconds: performance.now() - started, ...reply }, moved);
        try {
            const reply = replyTo(data);
            sent(reply, (reply.files ?? []).map(({ bytes }) => bytes.buffer));
        } catch (why) {
            sent({ ...FAILED, failed: String(why) }, []);
        }
    };
}

// The reply of a run that failed: `failed` says why.
const FAILED = { outcome: 101, out: "", err: "", files: [] };

/** A run that was stopped. */
export class Stopped extends Error {}

/** Runs programs and tasks in a worker that calls `serve`, one after another. It says what runs, and can stop it. */
export class Runner {
    /**
     * @param {WebAssembly.Module} module
     * @param {() => Worker} worker makes a worker
     * @param {() => void} changed is called whenever a run begins or ends
     */
    constructor(module, worker, changed = () => {}) {
        this.module = module;
        this.hire = worker;
        this.changed = changed;
        this.programs = new Set(programsOf(module));
        /** @type {any} */
        this.running = null;
        /** @type {Worker | null} */
        this.worker = null;
        this.last = null;
        this.waiting = [];
        this.count = 0;
    }

    /**
     * The reply of a program over files, or what a digest makes of it. The run ends where the signal says so.
     * @param {string} program
     * @param {string[]} words
     * @param {NamedFile[]} files
     * @param {{ digest?: string | null, signal?: AbortSignal | null }} options
     */
    run(program, words, files, { digest = null, signal = null } = {}) {
        return this.queued({ program, words, files, digest }, signal);
    }

    /**
     * The reply of a task of the page's own, which has its `result`.
     * @param {string} task
     * @param {any} given
     * @param {AbortSignal | null} signal
     */
    task(task, given, signal = null) {
        return this.queued({ program: task, words: [], task, given }, signal);
    }

    // Queues a message.
    queued(message, signal) {
        return new Promise((resolve, reject) => {
            const job = { message: { ...message, id: ++this.count }, resolve, reject };
            if (signal?.aborted) {
                reject(new Stopped("stopped"));
                return;
            }
            signal?.addEventListener("abort", () => this.drop(job));
            this.waiting.push(job);
            this.next();
        });
    }

    // Begins the next run, if none goes on.
    next() {
        if (this.running || !this.waiting.length) return;
        this.worker ??= this.hired();
        this.running = this.waiting.shift();
        this.running.began = performance.now();
        this.worker.postMessage(this.running.message);
        this.changed();
    }

    // A new worker.
    hired() {
        const worker = this.hire();
        worker.onmessage = ({ data }) => this.ended(data);
        worker.onerror = event => this.ended({ id: this.running?.message.id, ...FAILED, failed: event.message || "the worker failed" });
        worker.postMessage({ module: this.module });
        return worker;
    }

    // Takes the reply of the run that goes on.
    ended(reply) {
        const done = this.running;
        if (done?.message.id !== reply.id) return;
        const { program, words } = done.message;
        this.running = null;
        this.last = { program, words, milliseconds: reply.milliseconds };
        done.resolve(this.resultOf(reply, done.message));
        this.changed();
        this.next();
    }

    // What is made of a reply. A page may have its own.
    resultOf(reply, _message) {
        return reply;
    }

    // Ends one run, whether it goes on or waits.
    drop(job) {
        if (this.running === job) {
            this.worker.terminate();
            this.worker = this.running = null;
        } else if (this.waiting.includes(job)) {
            this.waiting = this.waiting.filter(one => one !== job);
        } else {
            return;
        }
        job.reject(new Stopped("stopped"));
        this.changed();
        this.next();
    }

    /** Ends the run that goes on, and those that wait. */
    stop() {
        for (const job of [...this.waiting, ...this.running ? [this.running] : []]) this.drop(job);
    }
}
