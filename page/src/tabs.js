// The views of the page, one of which is in front, with their tabs.
import { open } from "./actions.js";
import { make } from "./elements.js";
import { state } from "./state.js";
import { text } from "./texts.js";

// Builds the tabs of the views, given by name, and returns their list, their panels and the function that shows the one in front.
export function tabsOf(views) {
    const names = Object.keys(views);
    const panels = names.map(name => make("section", { role: "tabpanel", id: `view-${name}`, "aria-labelledby": `tab-${name}`,
        tabindex: "-1" }, views[name].element));
    const focusPanel = () => panels[names.indexOf(state.view)].focus({ preventScroll: true });
    // A click goes to the view with the focus, and keys stay on the tabs.
    const tabs = names.map(name => make("button", { type: "button", role: "tab", id: `tab-${name}`,
        "aria-controls": `view-${name}`, click: event => {
        open(name);
        if (event.detail) focusPanel();
    } }, text(`tab.${name}`)));
    const list = make("div", { role: "tablist", "aria-label": text("tab.list"), keydown: event => {
        const at = tabs.indexOf(document.activeElement), last = names.length - 1;
        const to = { ArrowRight: at < last ? at + 1 : 0, ArrowLeft: at ? at - 1 : last, Home: 0, End: last }[event.key];
        if (to === undefined) return;
        event.preventDefault();
        open(names[to]);
        tabs[to].focus();
    } }, tabs);
    let front = null;
    const show = () => {
        if (front === state.view) return;
        front = state.view;
        names.forEach((name, k) => {
            panels[k].hidden = name !== front;
            tabs[k].setAttribute("aria-selected", name === front);
            tabs[k].tabIndex = name === front ? 0 : -1;
        });
        window.scrollTo(0, 0);
        if (!tabs.includes(document.activeElement)) focusPanel();
    };
    return { list, panels, show };
}
