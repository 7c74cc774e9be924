/* The quotient of numbers of 128 bits, which the module's code asks for. */
typedef unsigned __int128 wide;
typedef unsigned long half;

wide __udivti3(wide a, wide b) {
    if (!(a >> 64) && !(b >> 64)) return (half)a / (half)b;
    wide quotient = 0, rest = 0;
    for (int bit = 0; bit < 128; bit++) {
        rest = (rest << 1) | (a >> 127);
        a <<= 1;
        quotient <<= 1;
        if (rest >= b) {
            rest -= b;
            quotient |= 1;
        }
    }
    return quotient;
}
