// Runs before all else, also in old browsers: where the browser lacks what the page needs, the page says so.
(function () {
    // A module with a function that makes a vector of 128 bits.
    var VECTOR = [0, 97, 115, 109, 1, 0, 0, 0, 1, 5, 1, 96, 0, 1, 123, 3, 2, 1, 0, 10, 10, 1, 8, 0, 65, 0, 253, 15, 253, 98, 11];
    var isAble = false;
    try {
        isAble = typeof WebAssembly === "object" && WebAssembly.validate(new Uint8Array(VECTOR))
            && typeof BigInt === "function" && typeof DecompressionStream === "function" && typeof [].toReversed === "function";
    } catch (why) {
        isAble = false;
    }
    document.getElementById(isAble ? "opening" : "needs").removeAttribute("hidden");
    if (!isAble) document.documentElement.className = "unable";
})();
