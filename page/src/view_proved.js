// The view that says what is proved, and shows the theorems.
import { make } from "./elements.js";
import { text } from "./texts.js";

export function provedView(theorems) {
    const page = make("article", { class: "theorems", id: "theorems", tabindex: "-1" });
    page.append(...new DOMParser().parseFromString(theorems, "text/html").body.childNodes);
    const link = make("a", { href: "#theorems", click: event => {
        event.preventDefault();
        page.scrollIntoView();
        page.focus({ preventScroll: true });
    } }, text("proved.theorems"));
    const element = make("div", {}, make("h2", {}, text("proved.title")),
        make("div", { class: "lead" }, ["proved.sewn", "proved.least", "proved.look"].map(key => make("p", {}, text(key)))),
        make("h3", {}, text("proved.exactly")),
        make("ul", { class: "three-lines" }, ["proved.one", "proved.two", "proved.three"].map(key => make("li", {}, text(key)))),
        make("p", {}, link), page);
    return { element, wants: () => [], show: () => {} };
}
