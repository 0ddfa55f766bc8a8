/* The functions of memory.h, over those of the C library. */
#include "memory.h"

#include <stdlib.h>

static struct rattle_block result_of(void *block) {
    const struct rattle_block result = {block != NULL, block};
    return result;
}

/* `malloc` aligns a block to each power of two up to 16 that divides its size. A block of size 0 is
 * allocated with the size `align`. */
struct rattle_block rattle_alloc(size_t size, size_t align) {
    return result_of(malloc(size != 0 ? size : align));
}

struct rattle_block rattle_realloc(void *block, size_t kept, size_t size, size_t align) {
    (void)kept;
    return result_of(realloc(block, size != 0 ? size : align));
}

void rattle_dealloc(void *block) {
    free(block);
}
