/* Converts a design: convert < mine.pes > mine.dst */
#include <stdio.h>
#include <stitch.h>

static uint8_t design[STITCH_MAX_FILE + 1];

int main(void) {
    const char *arguments[] = { "convert", "in.pes", "out.dst" };
    stitch_file in = { "in.pes", { design, fread(design, 1, sizeof design, stdin) } };
    stitch_reply reply;
    stitch_bytes out;
    uint8_t *bytes = stitch_call(stitch_run, arguments, 3, &in, 1, &reply);
    if (!bytes) return STITCH_OUT_OF_MEMORY;
    fwrite(reply.err.bytes, 1, reply.err.length, stderr);
    if (stitch_find(&reply, "out.dst", &out)) fwrite(out.bytes, 1, out.length, stdout);
    free(bytes);
    return (int)reply.outcome;
}
