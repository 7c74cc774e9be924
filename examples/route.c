/* Routes a drawing, and checks the route by its certificate: route < mine.rw > mine.pes */
#include <stdio.h>
#include <stitch.h>

static uint8_t drawing[STITCH_MAX_FILE + 1];

/* Writes what a run printed and reported, and returns its exit status. */
static int reported(const stitch_reply *reply) {
    fwrite(reply->out.bytes, 1, reply->out.length, stderr);
    fwrite(reply->err.bytes, 1, reply->err.length, stderr);
    return (int)reply->outcome;
}

int main(void) {
    const char *arguments[] = { "route", "in.rw", "out.pes", "out.cert" };
    stitch_file files[] = { { "in.rw", { drawing, fread(drawing, 1, sizeof drawing, stdin) } }, { "out.pes", { 0, 0 } }, { "out.cert", { 0, 0 } } };
    stitch_reply reply;
    uint8_t *route = stitch_call(stitch_run, arguments, 4, files, 1, &reply), *check = NULL;
    int status = route ? reported(&reply) : STITCH_OUT_OF_MEMORY;
    if (status == STITCH_DONE && stitch_find(&reply, "out.pes", &files[1].content) && stitch_find(&reply, "out.cert", &files[2].content)) {
        arguments[0] = "check";
        check = stitch_call(stitch_run, arguments, 4, files, 3, &reply);
        status = check ? reported(&reply) : STITCH_OUT_OF_MEMORY;
        if (status == STITCH_DONE) fwrite(files[1].content.bytes, 1, files[1].content.length, stdout);
    }
    free(check);
    free(route);
    return status;
}
