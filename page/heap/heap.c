/* The heap of the module. Freed blocks are kept in a list for each size; sizes are multiples of 16, four between powers of two. */
typedef unsigned long size_t;

enum { HEAD = 16, PAGE = 65536, LEAST_PAGES = 256, SIZES = 256 };

struct block {
    size_t size;         /* the index of the size */
    struct block *next;  /* of a freed block: the next one of its size */
};

extern unsigned char __heap_base;
static unsigned char *top;
static struct block *freed[SIZES];

/* The index of the least size that holds n bytes. */
static size_t size_for(size_t n) {
    if (n <= 64) return n ? (n - 1) / 16 : 0;
    size_t log = 63 - (size_t)__builtin_clzl(n - 1);
    size_t quarter = ((n - 1) >> (log - 2)) & 3;
    return 4 + (log - 6) * 4 + quarter;
}

/* The bytes of the size with that index. */
static size_t bytes_of(size_t size) {
    return size < 4 ? 16 * (size + 1) : (size % 4 + 5) << (size / 4 + 3);
}

/* Whether the memory reaches to that address, after it grew if it had to. */
static int reaches(unsigned char *end) {
    size_t have = __builtin_wasm_memory_size(0) * PAGE;
    if ((size_t)end <= have) return 1;
    size_t more = ((size_t)end - have + PAGE - 1) / PAGE;
    return __builtin_wasm_memory_grow(0, more < LEAST_PAGES ? LEAST_PAGES : more) != (size_t)-1
        || __builtin_wasm_memory_grow(0, more) != (size_t)-1;
}

static unsigned char *new_block(size_t size) {
    if (!top) top = (unsigned char *)(((size_t)&__heap_base + 15) & ~(size_t)15);
    unsigned char *end = top + HEAD + bytes_of(size);
    if (end < top || !reaches(end)) return 0;
    struct block *made = (struct block *)top;
    made->size = size;
    top = end;
    return (unsigned char *)made + HEAD;
}

__attribute__((export_name("stitch_alloc"))) void *heap_new(size_t n) {
    size_t size = size_for(n);
    struct block *kept = size < SIZES ? freed[size] : 0;
    if (size >= SIZES) return 0;
    if (!kept) return new_block(size);
    freed[size] = kept->next;
    return (unsigned char *)kept + HEAD;
}

__attribute__((export_name("stitch_free"))) void heap_free(void *at) {
    if (!at) return;
    struct block *left = (struct block *)((unsigned char *)at - HEAD);
    left->next = freed[left->size];
    freed[left->size] = left;
}

void *heap_resize(void *at, size_t n) {
    if (!at) return heap_new(n);
    struct block *old = (struct block *)((unsigned char *)at - HEAD);
    size_t room = bytes_of(old->size);
    if (n <= room) return at;
    unsigned char *moved = heap_new(n);
    if (!moved) return 0;
    __builtin_memcpy(moved, at, room);
    heap_free(at);
    return moved;
}
