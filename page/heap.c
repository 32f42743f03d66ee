/* The heap of the module that has all of `ecall`: the three functions that Rattle's allocator calls. Blocks of 2^k bytes, each
 * behind its k; the memory grows by pages, and is never given back. A block is aligned to 16 bytes. Where there is no memory,
 * what is answered points to a byte that is kept here. */

typedef unsigned long size;
typedef struct { size ok; unsigned char *place; } tried;

enum { PAGE = 65536, LEAST_PAGES = 256, HEAD = 16, CLASSES = 41 };

static size at, end;            /* of the piece of memory that is given out */
static size unused[CLASSES];    /* by k, the last block that was given back; it holds the one before */
static unsigned char none;

/* So many new bytes, or 0. */
static size extend(size wanted) {
    if (!at) at = end = __builtin_wasm_memory_size(0) * PAGE; /* what is there is the module's, or the page's */
    if (wanted > end - at) {
        size pages = (wanted + PAGE - 1) / PAGE;
        if (pages < LEAST_PAGES) pages = LEAST_PAGES;
        size old = __builtin_wasm_memory_grow(0, pages);
        if (old == (size)-1) return 0;
        if (old * PAGE != end) at = old * PAGE; /* the page took memory in between */
        end = (old + pages) * PAGE;
    }
    size place = at;
    at += wanted;
    return place;
}

static size class_of(size bytes) {
    size k = 4;
    while (((size)1 << k) < bytes) k++;
    return k;
}

/* The place where a block says its k. */
static size *head_of(size block) { return (size *)(block - HEAD); }

/* A block of so many bytes, or 0. */
static size take(size bytes) {
    if (bytes > (size)1 << (CLASSES - 1)) return 0;
    size k = class_of(bytes), block = unused[k];
    if (block) {
        unused[k] = *(size *)block;
        return block;
    }
    size place = extend(((size)1 << k) + HEAD);
    if (!place) return 0;
    *head_of(place + HEAD) = k;
    return place + HEAD;
}

void rattle_dealloc(unsigned char *block) {
    size k = *head_of((size)block);
    *(size *)block = unused[k];
    unused[k] = (size)block;
}

static tried answer(size block) {
    return block ? (tried){1, (unsigned char *)block} : (tried){0, &none};
}

tried rattle_alloc(size bytes, size align) { return answer(take(bytes ? bytes : align)); }

tried rattle_realloc(unsigned char *block, size kept, size bytes, size align) {
    if (bytes <= (size)1 << *head_of((size)block)) return answer((size)block);
    tried other = rattle_alloc(bytes, align);
    if (!other.ok) return other;
    for (size i = 0; i < kept; i++) other.place[i] = block[i];
    rattle_dealloc(block);
    return other;
}
