/* Runs a command, and unpacks its reply with bytes cut off or changed, for a checker of addresses to see what is read. */
#include <stdio.h>
#include <stitch.h>

static uint8_t task[100], whole[100000];

int main(void) {
    const char *arguments[] = { "sample", "1", "a.rw" };
    size_t length = stitch_pack(arguments, 3, NULL, 0, task, sizeof task), cut, k;
    stitch_reply reply;
    stitch_bytes found;
    if (length != 31 || stitch_pack(arguments, 3, NULL, 0, NULL, 0) != 31) return puts("the task hasn't 31 bytes");
    length = stitch_run(task, length, whole, sizeof whole);
    for (cut = 0; cut <= length; cut++) {
        uint8_t *bytes = (uint8_t *)malloc(cut + !cut);
        memcpy(bytes, whole, cut);
        if (stitch_unpack(bytes, cut, &reply) != (cut == length)) return printf("%zu bytes of %zu\n", cut, length);
        if (cut == length && (reply.outcome != STITCH_DONE || !stitch_find(&reply, "a.rw", &found) || stitch_find(&reply, "b.rw", &found)))
            return puts("the reply isn't as it was");
        free(bytes);
    }
    for (k = 0; k < 200000; k++) {
        uint8_t *bytes = (uint8_t *)malloc(length);
        memcpy(bytes, whole, length);
        bytes[rand() % length] = (uint8_t)rand();
        bytes[rand() % 4 * 4] = (uint8_t)rand();
        if (stitch_unpack(bytes, length, &reply)) stitch_find(&reply, "a.rw", &found);
        free(bytes);
    }
    return 0;
}
