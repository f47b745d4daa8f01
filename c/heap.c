/* The heap of the library, over malloc, realloc and free. A program that takes memory from a pool defines these three functions
 * itself, and doesn't link libfelosumay_heap.a. */
#include "felosumay.h"
#include <stdlib.h>

/* What a block that isn't there points to: no pointer is NULL. */
static char nothing[1];

static felosumay_block block(void *at) {
    felosumay_block made = {at != NULL, at != NULL ? at : nothing};
    return made;
}

/* Whether the C library of this target can be asked for so many bytes. */
static int fits(uint64_t size) {
    return (size_t)size == size;
}

/* malloc may answer NULL if it is asked for no bytes, and that isn't out of memory. */
felosumay_block rattle_alloc(uint64_t size, uint64_t alignment) {
    return block(fits(size) ? malloc((size_t)(size != 0 ? size : alignment)) : NULL);
}

felosumay_block rattle_realloc(void *at, uint64_t kept, uint64_t size, uint64_t alignment) {
    (void)kept;
    return block(fits(size) ? realloc(at, (size_t)(size != 0 ? size : alignment)) : NULL);
}

void rattle_dealloc(void *at) {
    free(at);
}
