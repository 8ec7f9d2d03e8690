/* The three functions by which the library asks for memory, for a processor that the toolchain's kit
 * has none for. They do what the kit's own do for x86-64: `ok` is 0 where malloc has none, and `at`
 * is never null. Of nothing `least` bytes are asked for. */
#include <stdint.h>
#include <stdlib.h>

typedef struct got {
    uint64_t ok;
    void *at;
} got;

static char nothing;

static got got_at(void *at) {
    got it = {at != NULL, at ? at : &nothing};
    return it;
}

got rattle_alloc(size_t size, size_t least) {
    return got_at(malloc(size ? size : least));
}

got rattle_realloc(void *at, size_t old, size_t size, size_t least) {
    (void)old;
    return got_at(realloc(at, size ? size : least));
}

void rattle_dealloc(void *at) {
    free(at);
}
