/* The three functions with which the proved library and hodkhaki.c allocate memory. memory.c implements
 * them over the C library. A program may implement them itself, and then leaves memory.c out.
 *
 * Each function returns: it throws no exception and does not jump. Threads may call them at the same
 * time. */
#ifndef HODKHAKI_MEMORY_H
#define HODKHAKI_MEMORY_H

#include <stdbool.h>
#include <stddef.h>

#ifdef __cplusplus
extern "C" {
#endif

/* The result of an allocation: a block, or none if `is_there` is false. */
struct rattle_block {
    bool is_there;
    void *block;
};

/* Allocates `size` bytes, which may be 0, at a multiple of `align`: a power of two up to 16 that
 * divides `size`. */
struct rattle_block rattle_alloc(size_t size, size_t align);

/* Gives a block another size and preserves its first `kept` bytes. If the allocation fails, the
 * block is unchanged. `size` and `align` are as in `rattle_alloc`, and `align` is the one that the
 * block was allocated with. `kept` is at most the old size and at most the new one. */
struct rattle_block rattle_realloc(void *block, size_t kept, size_t size, size_t align);

/* Frees a block. */
void rattle_dealloc(void *block);

#ifdef __cplusplus
}
#endif

#endif
