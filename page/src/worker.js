// Runs the programs of the module beside the page, and what else takes long.
import { serve } from "../stitch.js";
import { DIGESTS } from "./digests.js";
import { drawingOf } from "./svg_drawing.js";
import { zipOf } from "./zip.js";

serve({ digests: DIGESTS, tasks: { svg: ([strokes, options]) => drawingOf(strokes, options), zip: files => zipOf(files) } });
