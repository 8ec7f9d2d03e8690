/* The memory of a page: malloc and free in a module of WebAssembly that has no C library, and the
 * three functions by which the proved library asks for memory (library/heap.c has them for others).
 *
 * An end asks at its start alone, for a few large pieces, and gives them all back at its finish. So
 * one list is enough: the free blocks by their addresses, of which the first that fits is taken, and
 * neighbours become one again. A page that starts and finishes ends again and again keeps to the
 * memory of the most that were open at once.
 *
 * It is compiled by itself, for 64-bit WebAssembly alone (-ffreestanding): a module's memory begins
 * with its stack and data, up to __heap_base, and grows by pages of 64 KB. */

/* A compiler by itself has no headers. */
typedef __SIZE_TYPE__ size_t;
typedef __UINTPTR_TYPE__ uintptr_t;
typedef __UINT64_TYPE__ uint64_t;
#define NULL ((void *)0)

/* A block: this head, whose size counts it, and after it what its owner has. */
typedef struct block {
    size_t size;        /* in bytes, a multiple of UNIT */
    struct block *next; /* the next free one; of one that is taken nothing */
} block;

#define UNIT sizeof(block)
#define PAGE ((size_t)65536)
/* More than any end asks for; a sum of sizes below it doesn't wrap. */
#define MOST ((size_t)1 << 40)

_Static_assert(sizeof(block) == 16, "what malloc gives is aligned to 16 bytes");

extern unsigned char __heap_base;

static block *first_free;
static uintptr_t heap_end; /* where the memory ends that this list has the keeping of */

static size_t rounded(size_t size, size_t to) {
    return (size + to - 1) / to * to;
}

static block *after(block *it) {
    return (block *)((char *)it + it->size);
}

/* Puts a block among the free ones, in its place, and joins it to those that it touches. */
static void put_back(block *it) {
    block **place = &first_free, *before = NULL;
    while (*place && *place < it) {
        before = *place;
        place = &before->next;
    }
    it->next = *place;
    *place = it;
    if (it->next && after(it) == it->next) {
        it->size += it->next->size;
        it->next = it->next->next;
    }
    if (before && after(before) == it) {
        before->size += it->size;
        before->next = it->next;
    }
}

/* Asks for so many bytes more at the end of the memory, as a free block. Answers whether there are. */
static int grow(size_t size) {
    size_t had = __builtin_wasm_memory_size(0) * PAGE;
    block *it;
    if (!heap_end) heap_end = rounded((uintptr_t)&__heap_base, UNIT);
    if (heap_end + size > had &&
        __builtin_wasm_memory_grow(0, rounded(heap_end + size - had, PAGE) / PAGE) == (size_t)-1)
        return 0;
    it = (block *)heap_end;
    it->size = __builtin_wasm_memory_size(0) * PAGE - heap_end;
    heap_end += it->size;
    put_back(it);
    return 1;
}

/* Takes so many bytes of the first free block that has them, or nothing. */
static block *taken(size_t size) {
    block **place = &first_free, *it, *rest;
    while (*place && (*place)->size < size) place = &(*place)->next;
    it = *place;
    if (!it) return NULL;
    *place = it->next;
    if (it->size == size) return it;
    rest = (block *)((char *)it + size);
    rest->size = it->size - size;
    rest->next = it->next;
    *place = rest;
    it->size = size;
    return it;
}

void *malloc(size_t size) {
    block *it;
    if (size > MOST) return NULL;
    size = rounded(size + UNIT, UNIT);
    it = taken(size);
    if (!it && grow(size)) it = taken(size);
    return it ? it + 1 : NULL;
}

void free(void *at) {
    if (at) put_back((block *)at - 1);
}

/* ---- the proved library's ------------------------------------------------------------------- */

/* `ok` is 0 where there is no memory, and `at` is never null. Of nothing `least` bytes are asked. */
typedef struct got {
    uint64_t ok;
    void *at;
} got;

static char nothing;

static got got_at(void *at) {
    got it = {at != NULL, at ? at : &nothing};
    return it;
}

got rattle_alloc(size_t size, size_t least) {
    return got_at(malloc(size ? size : least));
}

got rattle_realloc(void *at, size_t old, size_t size, size_t least) {
    size_t room = ((block *)at - 1)->size - UNIT;
    void *to;
    (void)old;
    if (!size) size = least;
    if (size <= room) return got_at(at);
    to = malloc(size);
    if (!to) return got_at(NULL);
    __builtin_memcpy(to, at, room);
    free(at);
    return got_at(to);
}

void rattle_dealloc(void *at) {
    free(at);
}
