// The view in which a drawing, a stitch file and a certificate are checked, and two stitch files are compared.
import { hasProgram } from "./commands.js";
import { chooser, fill, make, painter, say } from "./elements.js";
import { kindOfFile, readFiles } from "./files.js";
import { change, known, state } from "./state.js";
import { text } from "./texts.js";

const KINDS = { drawing: ".rw,.txt", design: ".dst,.exp,.pec,.pes,.lst", certificate: ".cert" };

export function checkView() {
    const [answer, difference] = [make("div", { role: "status", class: "answer" }), make("div", { role: "status", class: "answer" })];
    const message = make("p", { class: "refused", role: "alert" });

    // Takes files for what they are: each of the three has a kind of its own.
    const take = async (given, kinds = Object.keys(KINDS)) => {
        const { files, refusals } = await readFiles(given), fitting = files.filter(({ name }) => kinds.includes(kindOfFile(name)));
        const others = files.filter(file => !fitting.includes(file)).map(({ name }) => text("check.other", { name }));
        change({ checked: { ...state.checked, ...Object.fromEntries(fitting.map(file => [kindOfFile(file.name), file])) },
            refusals: [...refusals, ...others] });
    };
    const names = [];
    const fileChooser = (key, accept, take, nameOf) => {
        const name = make("code"), input = make("input", { type: "file", accept, change: async () => {
            if (input.files[0]) await take([...input.files]);
            input.value = "";
        } });
        names.push(() => say(name, nameOf() ?? text("check.noFile")));
        return chooser(key, input, name, { class: "drop small" });
    };
    const three = Object.entries(KINDS).map(([kind, accept]) => fileChooser(`check.${kind}`, accept, files => take(files, [kind]),
        () => state.checked[kind]?.name));
    const two = ["compare.one", "compare.other"].map((key, k) => fileChooser(key, KINDS.design, async given => {
        const { files, refusals } = await readFiles(given);
        change({ compared: state.compared.map((one, j) => j === k ? files[0] ?? one : one), refusals });
    }, () => state.compared[k]?.name));

    const paintAnswer = painter((found, isThree) => fill(answer, !isThree ? make("p", { class: "hint" }, text("check.three")) : !found
        ? make("p", {}, text("check.going")) : found.refused ? make("p", { class: "refused" }, found.refused)
            : found.isYes ? [make("p", { class: "yes" }, text("check.yes")), found.isBare && make("p", {}, text("check.bareYes")),
                make("p", {}, text("check.yesMeans")), make("p", { class: "hint" }, text("check.yesNot"))]
                : [make("p", { class: "no" }, text("check.no")), found.isBare && make("p", {}, text("check.bareNo")), make("p", {}, make("code", {},
                    found.why))]));
    const paintDifference = painter(found => fill(difference, found && (found.isSame ? make("p", { class: "yes" }, text("compare.same"))
        : make("p", { class: "refused" }, found.why ?? found.refused))));
    const element = make("div", {}, make("h2", {}, text("check.title")), make("p", {}, text("check.lead")), message,
        make("div", { class: "three" }, three), answer,
        hasProgram("stitch_design") && [make("h3", {}, text("compare.title")), make("div", { class: "ways" }, two), difference]);
    element.addEventListener("drop", event => {
        event.preventDefault();
        event.stopPropagation();
        take([...event.dataTransfer.files]);
    });
    const show = () => {
        say(message, state.refusals.join("\n"), true);
        for (const one of names) one();
        paintAnswer(known("verdict"), Object.keys(KINDS).every(kind => state.checked[kind]));
        paintDifference(known("compared"));
    };
    return { element, wants: () => ["verdict", ...hasProgram("stitch_design") ? ["compared"] : []], show };
}
