"""The reader of SVG files. It isn't proved, unlike the programs."""
