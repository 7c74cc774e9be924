// The steps that make a drawing ready to be sewn, in their order: the table that "Make it ready" goes through.

// Of each step its name, the command, whether the drawing needs it, and the kinds of places that it mends.
export const STEPS = [
    { name: "migrate", program: "stitch", before: () => ["migrate"], isNeeded: words => /^redwork[ \t]+1\s/m.test(words), mends: [] },
    { name: "snap", before: ({ gap }) => ["snap", gap], mends: ["loose end", "near point", "unlisted meeting"] },
    { name: "cross", before: () => ["cross"], mends: ["crossing", "overlap"] },
    { name: "space", before: () => ["space"], isOnce: true, mends: ["short stitches"] },
    { name: "free", before: () => ["free"], mends: [] },
    { name: "near", before: () => ["near"], mends: [] },
];

export function stepNamed(name) {
    return STEPS.find(step => step.name === name);
}
