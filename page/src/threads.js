// The 64 threads of Brother's palette, and the nearest one of a colour.
import { bytesOf } from "./svg_style.js";

const LIST = `0e1f7c Prussian Blue,0a55a3 Blue,008777 Teal Green,4b6baf Cornflower Blue,ed171f Red,d15c00 Reddish Brown,
913697 Magenta,e49acb Light Lilac,915fac Lilac,9ed67d Mint Green,e8a900 Deep Gold,feba35 Orange,ffff00 Yellow,70bc1f Lime Green,
ba9800 Brass,a8a8a8 Silver,7d6f00 Russet Brown,ffffb3 Cream Brown,4f5556 Pewter,000000 Black,0b3d91 Ultramarine,
770176 Royal Purple,293133 Dark Gray,2a1301 Dark Brown,f64a8a Deep Rose,b27624 Light Brown,fcbbc5 Salmon Pink,fe370f Vermilion,
f0f0f0 White,6a1c8a Violet,a8ddc4 Seacrest,2584bb Sky Blue,feb343 Pumpkin,fff36b Cream Yellow,d0a660 Khaki,d15400 Clay Brown,
66ba49 Leaf Green,134a46 Peacock Blue,878787 Gray,d8ccc6 Warm Gray,435607 Dark Olive,fdd9de Flesh Pink,f993bc Pink,
003822 Deep Green,b2afd4 Lavender,686ab0 Wisteria Violet,efe3b9 Beige,f73866 Carmine,b54b64 Amber Red,132b1a Olive Green,
c70156 Dark Fuchsia,fe9e32 Tangerine,a8deeb Light Blue,00673e Emerald Green,4e2990 Purple,2f7e20 Moss Green,ffcccc Flesh Pink,
ffd911 Harvest Gold,095ba6 Electric Blue,f0f970 Lemon Yellow,e3f35b Fresh Green,ff9900 Orange,fff08d Cream Yellow,
ffc8c8 Applique`.replaceAll("\n", "").split(",");

// Number, name and colour of each thread.
export const THREADS = LIST.map((line, k) => ({ number: k + 1, name: line.slice(7), colour: `#${line.slice(0, 6)}` }));

// The thread of a number from 0 to 255: 0 and those beyond 64 repeat the palette.
export function threadOf(number) {
    return { ...THREADS[(number + 63) % 64], number };
}

// Lightness, green to red and blue to yellow of a colour (CIE 1976, daylight D65).
function lab(colour) {
    const [r, g, b] = colour.map(part => part <= 10 ? part / 3294.6 : ((part / 255 + 0.055) / 1.055) ** 2.4);
    const [x, y, z] = [0.4339 * r + 0.3762 * g + 0.1899 * b, 0.2126 * r + 0.7152 * g + 0.0722 * b,
        0.0178 * r + 0.1095 * g + 0.8727 * b].map(part => part > 216 / 24389 ? part ** (1 / 3) : part * 841 / 108 + 4 / 29);
    return [116 * y - 16, 500 * (x - y), 200 * (y - z)];
}

// The distance CIE94 of a colour from another, squared.
function distance([l, a, b], [m, c, d]) {
    const chroma = Math.hypot(a, b), more = chroma - Math.hypot(c, d);
    const hue = Math.max((a - c) ** 2 + (b - d) ** 2 - more * more, 0);
    return (l - m) ** 2 + (more / (1 + 0.045 * chroma)) ** 2 + hue / (1 + 0.015 * chroma) ** 2;
}

// The colours that SVG and the palette have by one name, and the numbers of these threads.
const NAMED = { "0,0,0": 20, "255,255,255": 29, "255,0,0": 5, "0,0,255": 2, "255,255,0": 13, "255,165,0": 12, "192,192,192": 16,
    "128,128,128": 39, "255,0,255": 7, "128,0,128": 55, "238,130,238": 30, "245,245,220": 47, "240,230,140": 35, "230,230,250": 45 };

// The thread with the name of a colour of three bytes in SVG, or else the nearest one.
export function nearestThread(colour) {
    const named = NAMED[[...colour].join()];
    if (named) return THREADS[named - 1];
    const from = lab(colour), far = THREADS.map(thread => distance(from, lab(bytesOf(thread.colour.slice(1)))));
    return THREADS[far.indexOf(Math.min(...far))];
}
