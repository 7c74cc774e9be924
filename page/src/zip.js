// A zip file of files that are stored as they are, after PKWARE's APPNOTE 6.3, sections 4.3.7, 4.3.12 and 4.3.16.
const TABLE = Uint32Array.from({ length: 256 }, (_, byte) => {
    let rest = byte;
    for (let k = 0; k < 8; k++) rest = rest & 1 ? rest >>> 1 ^ 0xedb88320 : rest >>> 1;
    return rest;
});

// The checksum CRC-32 of bytes.
export function crcOf(bytes) {
    let crc = ~0;
    for (const byte of bytes) crc = crc >>> 8 ^ TABLE[(crc ^ byte) & 255];
    return ~crc >>> 0;
}

// Numbers of 16 (h) and 32 bits (w), the low byte first.
function numbers(form, values) {
    const view = new DataView(new ArrayBuffer([...form].reduce((all, one) => all + (one === "h" ? 2 : 4), 0)));
    let at = 0;
    [...form].forEach((one, k) => {
        if (one === "h") view.setUint16(at, values[k], true);
        else view.setUint32(at, values[k], true);
        at += one === "h" ? 2 : 4;
    });
    return new Uint8Array(view.buffer);
}

// The date and the time as MS-DOS has them.
function dosTime(date) {
    return [date.getHours() << 11 | date.getMinutes() << 5 | date.getSeconds() >> 1,
        date.getFullYear() - 1980 << 9 | date.getMonth() + 1 << 5 | date.getDate()];
}

// The bytes of the zip file. Names are UTF-8 (bit 11 of the flags).
export function zipOf(files, date = new Date()) {
    const [time, day] = dosTime(date), parts = [], directory = [];
    let at = 0;
    for (const { name, bytes } of files) {
        const word = new TextEncoder().encode(name), head = [20, 0x800, 0, time, day, crcOf(bytes), bytes.length, bytes.length,
            word.length, 0];
        const local = [numbers("whhhhhwwwhh", [0x04034b50, ...head]), word, bytes];
        directory.push(numbers("whhhhhhwwwhhhhhww", [0x02014b50, 20, ...head, 0, 0, 0, 0, at]), word);
        parts.push(...local);
        at += local.reduce((all, part) => all + part.length, 0);
    }
    const length = directory.reduce((all, part) => all + part.length, 0);
    const end = numbers("whhhhwwh", [0x06054b50, 0, 0, files.length, files.length, length, at, 0]);
    const all = new Uint8Array(at + length + end.length);
    let to = 0;
    for (const part of [...parts, ...directory, end]) {
        all.set(part, to);
        to += part.length;
    }
    return all;
}
