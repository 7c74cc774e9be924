/* The programs of Stitch as functions, over files in memory. docs/EMBEDDING.md has an example, and the packing of bytes. Nothing is
 * kept between calls. What a caller owes to the four functions that run programs:
 *  - length bytes may be read at task, and room bytes written at reply; the two don't overlap;
 *  - nobody else reads or writes them during the call. Calls in several threads may run side by side;
 *  - no call is made from a signal handler, or from the forked child of a process with threads. */
#ifndef STITCH_H
#define STITCH_H

#include <stddef.h>
#include <stdint.h>
#include <stdlib.h>
#include <string.h>

#ifdef __cplusplus
extern "C" {
#endif

#define STITCH_VERSION "@VERSION@"
/* The bytes that a file may have. */
#define STITCH_MAX_FILE 67108864

/* The outcomes of a run: exit statuses, and two without a run. */
enum {
    STITCH_DONE = 0,
    STITCH_REFUSED = 1,
    STITCH_USAGE = 2,
    STITCH_FAILED = 3,
    STITCH_OUT_OF_MEMORY = 4,
    STITCH_NO_TASK = 100,
    STITCH_NO_MEMORY = 101
};

/* Each runs a packed task, and returns the length of the packed reply. If that exceeds room, the buffer at reply is unchanged, and
 * the call is made again with so much room. */
size_t stitch_run(const uint8_t *task, size_t length, uint8_t *reply, size_t room);
size_t stitch_drawing_run(const uint8_t *task, size_t length, uint8_t *reply, size_t room);
size_t stitch_picture_run(const uint8_t *task, size_t length, uint8_t *reply, size_t room);
size_t stitch_design_run(const uint8_t *task, size_t length, uint8_t *reply, size_t room);

/* Bytes: what a run printed, or the content of a file. */
typedef struct {
    const uint8_t *bytes;
    size_t length;
} stitch_bytes;

/* A file of a task. */
typedef struct {
    const char *name;
    stitch_bytes content;
} stitch_file;

/* What a reply says. It refers to the bytes that were unpacked. */
typedef struct {
    uint32_t outcome;
    stitch_bytes out, err, files;
} stitch_reply;

/* The room in which nearly every reply to a task of a length fits. What a reply doesn't reach takes no memory on systems that give
 * a page when it is used. */
static inline size_t stitch_room(size_t length) {
    return length < 2097152 ? 33554432 + 48 * length : 134217728;
}

/* Writes a number at a place of a task, if the place is there, and returns the place after it. */
static inline size_t stitch_put_number(uint8_t *task, size_t at, size_t room, size_t number) {
    size_t i;
    for (i = 0; i < 4; i++)
        if (at + i < room) task[at + i] = (uint8_t)(number >> 8 * i);
    return at + 4;
}

/* Writes a part likewise: the number of its bytes, and these bytes. */
static inline size_t stitch_put_part(uint8_t *task, size_t at, size_t room, const void *bytes, size_t length) {
    at = stitch_put_number(task, at, room, length);
    if (length && at <= room && length <= room - at) memcpy(task + at, bytes, length);
    return at + length;
}

/* Packs the task of some arguments and files, and returns its length. If that exceeds room, the task isn't whole. */
static inline size_t stitch_pack(const char *const *arguments, size_t count, const stitch_file *files, size_t file_count, uint8_t *task,
                                 size_t room) {
    size_t i, at = stitch_put_number(task, 0, room, count);
    for (i = 0; i < count; i++) at = stitch_put_part(task, at, room, arguments[i], strlen(arguments[i]));
    at = stitch_put_number(task, at, room, file_count);
    for (i = 0; i < file_count; i++) {
        at = stitch_put_part(task, at, room, files[i].name, strlen(files[i].name));
        at = stitch_put_part(task, at, room, files[i].content.bytes, files[i].content.length);
    }
    return at;
}

/* Takes a number from the beginning of some bytes, and returns whether it was there. */
static inline int stitch_take_number(stitch_bytes *from, uint32_t *number) {
    if (from->length < 4) return 0;
    *number = from->bytes[0] | (uint32_t)from->bytes[1] << 8 | (uint32_t)from->bytes[2] << 16 | (uint32_t)from->bytes[3] << 24;
    from->bytes += 4;
    from->length -= 4;
    return 1;
}

/* Takes a part likewise. */
static inline int stitch_take_part(stitch_bytes *from, stitch_bytes *part) {
    uint32_t length;
    if (!stitch_take_number(from, &length) || from->length < length) return 0;
    part->bytes = from->bytes;
    part->length = length;
    from->bytes += length;
    from->length -= length;
    return 1;
}

/* Finds what a packed reply says, and returns whether it is one, as each reply is that fits the room of its call. */
static inline int stitch_unpack(const uint8_t *reply, size_t length, stitch_reply *unpacked) {
    stitch_bytes rest = { reply, length }, part;
    uint32_t count;
    if (!stitch_take_number(&rest, &unpacked->outcome) || !stitch_take_part(&rest, &unpacked->out)
        || !stitch_take_part(&rest, &unpacked->err) || !stitch_take_number(&rest, &count)) return 0;
    unpacked->files = rest;
    for (; count; count--)
        if (!stitch_take_part(&rest, &part) || !stitch_take_part(&rest, &part)) return 0;
    return rest.length == 0;
}

/* Finds a file of an unpacked reply, and returns whether it is there. */
static inline int stitch_find(const stitch_reply *unpacked, const char *name, stitch_bytes *content) {
    stitch_bytes rest = unpacked->files, found;
    while (stitch_take_part(&rest, &found) && stitch_take_part(&rest, content))
        if (found.length == strlen(name) && memcmp(found.bytes, name, found.length) == 0) return 1;
    return 0;
}

/* Runs a program, such as stitch_run, with some arguments over some files. Returns the bytes of the reply, which the caller frees
 * after its last use of what they say, or NULL where there is no memory. */
static inline uint8_t *stitch_call(size_t (*run)(const uint8_t *, size_t, uint8_t *, size_t), const char *const *arguments, size_t count,
                                   const stitch_file *files, size_t file_count, stitch_reply *reply) {
    size_t length = stitch_pack(arguments, count, files, file_count, NULL, 0), room = stitch_room(length), needed = 0;
    uint8_t *task = (uint8_t *)malloc(length), *bytes = NULL;
    if (!task) return NULL;
    stitch_pack(arguments, count, files, file_count, task, length);
    while ((bytes = (uint8_t *)malloc(room)) && (needed = run(task, length, bytes, room)) > room) {
        free(bytes);
        room = needed;
    }
    free(task);
    if (bytes && stitch_unpack(bytes, needed, reply)) return bytes;
    free(bytes);
    return NULL;
}

#ifdef __cplusplus
}
#endif

#endif
