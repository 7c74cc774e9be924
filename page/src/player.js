// A picture of a design that grows needle by needle, on two canvases: the threads, and the needle points above them.
import { KINDS } from "./design.js";
import { fitOf } from "./hoop.js";
import { threadOf } from "./threads.js";

const MARGIN = 24, [NEEDLE, FLOAT, TRIM, STOP] = KINDS.keys();
// Milliseconds between two turns of the screen above which fewer acts are drawn at once, and how many that are.
const SLOW = 40, [LEAST, MOST] = [200, 20000];

export class Player {
    // `moved` is called with where the needle is, or null.
    constructor(threads, holes, moved) {
        Object.assign(this, { canvases: [threads, holes], pens: [threads, holes].map(canvas => canvas.getContext("2d")), moved });
        Object.assign(this, { acts: null, shown: 0, wanted: 0, going: null, hoop: null, before: 0, count: 2000 });
    }

    // Takes the acts of a design, and the hoop.
    load(acts, hoop) {
        Object.assign(this, { acts, hoop, wanted: 0 });
        this.fit();
    }

    // Fits the design into the canvas as large as it is on the screen, and draws it again.
    fit() {
        const ratio = window.devicePixelRatio || 1, [{ clientWidth, clientHeight }] = this.canvases;
        for (const canvas of this.canvases) [canvas.width, canvas.height] = [clientWidth * ratio, clientHeight * ratio].map(Math.round);
        if (!this.acts?.extent) return;
        const [left, top, right, low] = this.acts.extent, size = [right - left, low - top], room = MARGIN * ratio;
        const sides = this.hoop && (fitOf(size, this.hoop).isTurned ? this.hoop.toReversed() : this.hoop);
        const [width, height] = size.map((side, k) => Math.max(side, sides?.[k] ?? 0, 1)), [{ width: across, height: down }] = this.canvases;
        const by = Math.min((across - 2 * room) / width, (down - 2 * room) / height);
        Object.assign(this, { scale: by, ratio, sides });
        this.place = k => [(this.acts.xs[k] - (left + right) / 2) * by + across / 2, (this.acts.ys[k] - (top + low) / 2) * by + down / 2];
        this.clear();
        this.showTo(this.wanted);
    }

    clear() {
        const [{ width, height }] = this.canvases, [pen] = this.pens;
        for (const one of this.pens) one.clearRect(0, 0, width, height);
        this.shown = 0;
        if (!this.sides) return;
        const [across, down] = this.sides.map(side => side * this.scale);
        Object.assign(pen, { strokeStyle: "#5a5f69", lineWidth: 1.5 * this.ratio });
        pen.strokeRect((width - across) / 2, (height - down) / 2, across, down);
    }

    // Shows the acts before an index, in turns with all else that the page does.
    showTo(end) {
        this.wanted = end;
        if (!this.acts?.extent) return;
        if (end < this.shown) this.clear();
        this.moved(end ? this.place(end - 1).map(part => part / this.ratio) : null);
        this.goOn();
    }

    // Draws what is wanted next, as long as the canvas is shown.
    goOn(time = 0) {
        cancelAnimationFrame(this.going);
        if (!this.canvases[0].clientWidth) return;
        if (time) this.count = Math.min(Math.max(time - this.before > SLOW ? this.count >> 1 : 2 * this.count, LEAST), MOST);
        for (const pen of this.pens) pen.lineCap = pen.lineJoin = "round";
        const end = Math.min(this.wanted, this.shown + this.count);
        while (this.shown < end) this.shown = this.stroke(this.shown, end);
        this.before = time;
        if (this.shown < this.wanted) this.going = requestAnimationFrame(next => this.goOn(next));
    }

    // Draws the acts of one thread from an index, and returns the index after them.
    stroke(from, end) {
        const { pens: [pen, holes], ratio, acts: { kinds, blocks, threads } } = this, block = blocks[from], far = 1.3 * ratio;
        const hasHoles = this.scale > 0.12 * ratio;
        let k = from;
        pen.beginPath();
        holes.fillStyle = "#222";
        for (; k < end && blocks[k] === block; k++) {
            const isLoose = k === 0 || kinds[k - 1] === TRIM || kinds[k - 1] === STOP, [x, y] = this.place(k);
            if (kinds[k] === TRIM) this.cross(x, y);
            if (kinds[k] === NEEDLE && !isLoose) {
                pen.moveTo(...this.place(k - 1));
                pen.lineTo(x, y);
            } else if (kinds[k] === FLOAT && k > 0) {
                this.dash(k);
            }
            if (hasHoles && kinds[k] === NEEDLE) holes.fillRect(x - far, y - far, 2 * far, 2 * far);
        }
        Object.assign(pen, { strokeStyle: threadOf(threads[block]).colour, lineWidth: Math.max(1.4 * ratio, Math.min(4 * this.scale, 4 * ratio)) });
        pen.stroke();
        return Math.max(k, from + 1);
    }

    // A float: a straight way of dots in the path that goes on.
    dash(k) {
        const { pens: [pen], ratio } = this, [x, y] = this.place(k - 1), [u, v] = this.place(k);
        const count = Math.max(2, Math.hypot(u - x, v - y) / (6 * ratio));
        for (let part = 0; part < count; part++) {
            const [s, t] = [part / count, (part + 0.4) / count];
            pen.moveTo(x + s * (u - x), y + s * (v - y));
            pen.lineTo(x + t * (u - x), y + t * (v - y));
        }
    }

    // A trim: a cross at the last needle.
    cross(x, y) {
        const { pens: [pen], ratio } = this, far = 4 * ratio;
        pen.moveTo(x - far, y + far);
        pen.lineTo(x + far, y + 3 * far);
        pen.moveTo(x + far, y + far);
        pen.lineTo(x - far, y + 3 * far);
    }
}
