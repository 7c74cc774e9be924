// A frame in which a picture can be made larger and moved.
import { button, fill, make } from "./elements.js";
import { text } from "./texts.js";

// The bytes of a picture above which a browser may take long to show it.
const LARGE = 4000000;
const FACTORS = [1, 1.5, 2, 3, 4, 6, 8, 12, 16];

// The frame with its buttons, and a function that shows an element in it.
export function zoomFrame(key) {
    const frame = make("div", { class: "frame", tabindex: "0", role: "group", "aria-label": text(key) });
    let at = 0, shown = null;
    const scale = (next, x = frame.clientWidth / 2, y = frame.clientHeight / 2) => {
        const before = FACTORS[at];
        at = Math.min(Math.max(next, 0), FACTORS.length - 1);
        if (!shown) return;
        const by = FACTORS[at] / before, [left, top] = [(frame.scrollLeft + x) * by - x, (frame.scrollTop + y) * by - y];
        shown.style.width = shown.style.height = `${100 * FACTORS[at]}%`;
        shown.style.setProperty("--mark", FACTORS[at] ** -0.8);
        frame.scrollTo(left, top);
    };
    frame.addEventListener("wheel", event => {
        if (!event.ctrlKey) return;
        event.preventDefault();
        const box = frame.getBoundingClientRect();
        scale(at + (event.deltaY < 0 ? 1 : -1), event.clientX - box.left, event.clientY - box.top);
    }, { passive: false });
    const buttons = make("div", { class: "zoom", role: "group", "aria-label": text("zoom.buttons") },
        button("zoom.out", () => scale(at - 1), { title: text("zoom.out.title"), "aria-label": text("zoom.out.title") }),
        button("zoom.fit", () => scale(0), { title: text("zoom.fit.title") }),
        button("zoom.in", () => scale(at + 1), { title: text("zoom.in.title"), "aria-label": text("zoom.in.title") }));
    const show = element => {
        shown = element;
        fill(frame, element);
        if (element) scale(at);
    };
    return { element: make("div", { class: "picture" }, frame, buttons), frame, show };
}

// A frame for a picture of the programs, shown as an image that can't run anything.
export function pictureFrame(key) {
    const zoom = zoomFrame(key);
    let address = null;
    const place = (svg, words) => {
        address = URL.createObjectURL(new Blob([svg], { type: "image/svg+xml" }));
        zoom.show(make("img", { src: address, alt: words }));
    };
    const show = (svg, words) => {
        if (address) URL.revokeObjectURL(address);
        address = null;
        if (svg?.length > LARGE) {
            const size = Math.round(svg.length / 1e6);
            zoom.show(make("p", { class: "large" }, text("zoom.large", { size }), " ", button("zoom.show", () => place(svg, words))));
        } else if (svg) {
            place(svg, words);
        } else {
            zoom.show(null);
        }
    };
    return { element: zoom.element, show };
}
