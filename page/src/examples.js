// The examples, which stand in the page by name.
export const examples = JSON.parse(document.getElementById("examples").textContent);
// The one that the first screen shows.
export const SHOWN = "bird.svg";
