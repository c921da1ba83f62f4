/* The three heap functions that the library calls, written with the heap functions of the C library. `malloc` and
 * `realloc` must align a block to each power of two up to 16 that divides its size. */
#include <stdbool.h>
#include <stddef.h>
#include <stdlib.h>

/* Whether there is a block, and its address. The pointer isn't null, even if there is no block. */
struct typst_block {
    bool there;
    void *at;
};

struct typst_block rattle_alloc(size_t size, size_t align);
struct typst_block rattle_realloc(void *at, size_t kept, size_t size, size_t align);
void rattle_dealloc(void *at);

struct typst_block rattle_alloc(size_t size, size_t align)
{
    void *at = malloc(size ? size : 1);
    (void)align;
    return (struct typst_block){at != NULL, at ? at : (void *)16};
}

struct typst_block rattle_realloc(void *at, size_t kept, size_t size, size_t align)
{
    void *moved = realloc(at, size ? size : 1);
    (void)kept;
    (void)align;
    return (struct typst_block){moved != NULL, moved ? moved : at};
}

void rattle_dealloc(void *at)
{
    free(at);
}
