/* The three functions by which libteivorm.a asks for memory, over malloc.
 *
 * A program that links libteivorm.a compiles this file too, or has the three functions itself, over an allocator of its own. libteivorm.so has them
 * inside. If an allocation fails, the call of the library reports it (TEIVORM_NO_MEMORY, or a refusal) and has changed nothing.
 *
 * `align` is a power of two and at most 16, and each block is aligned to it: malloc aligns to 16 bytes on x86-64.
 */
#include <stdbool.h>
#include <stddef.h>
#include <stdlib.h>

/* A block, or none. `at` is never NULL, also if there is no block. */
struct teivorm_block {
    bool ok;
    void *at;
};

struct teivorm_block rattle_alloc(size_t size, size_t align);
struct teivorm_block rattle_realloc(void *at, size_t kept, size_t size, size_t align);
void rattle_dealloc(void *at);

static char no_block;

static struct teivorm_block block_at(void *at)
{
    return (struct teivorm_block){ at != NULL, at != NULL ? at : &no_block };
}

/* Returns `size` bytes. */
struct teivorm_block rattle_alloc(size_t size, size_t align)
{
    return block_at(malloc(size != 0 ? size : align));
}

/* Makes the block at `at` `size` bytes long; its first `kept` bytes are in use and stay. */
struct teivorm_block rattle_realloc(void *at, size_t kept, size_t size, size_t align)
{
    (void)kept;
    return block_at(realloc(at, size != 0 ? size : align));
}

void rattle_dealloc(void *at)
{
    free(at);
}
