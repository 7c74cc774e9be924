// The bar that shows which command runs, for how long, and stops it.
import { button, make } from "./elements.js";
import { text } from "./texts.js";

export function statusBar(runner, again) {
    const words = make("code"), time = make("span"), stop = button("run.stop", () => runner.stop(), { hidden: true });
    const repeat = button("run.again", again, { hidden: true });
    const element = make("footer", { class: "bar" }, words, time, stop, repeat);
    let ticking = null, doing = null;
    const line = ({ program, words: given }) => doing ?? [program, ...given].join(" ");
    const tick = () => {
        const { running } = runner;
        if (!running) return;
        const seconds = (performance.now() - running.began) / 1000;
        if (seconds > 0.15) {
            words.textContent = line(running.message);
            time.textContent = text("run.goes", { seconds: seconds.toFixed(1), waiting: runner.waiting.length });
            stop.hidden = false;
        }
        ticking = setTimeout(tick, 100);
    };
    const changed = () => {
        clearTimeout(ticking);
        if (runner.running) {
            tick();
            return;
        }
        stop.hidden = true;
        words.textContent = runner.last ? line(runner.last) : "";
        time.textContent = runner.last?.milliseconds ? text("run.took", { milliseconds: runner.last.milliseconds.toFixed(0) }) : "";
    };
    // Says what is done by several commands, and whether something was stopped that can be tried again.
    const say = (what, isStopped) => {
        repeat.hidden = !isStopped;
        if (doing === what) return;
        doing = what;
        changed();
    };
    return { element, changed, say };
}
