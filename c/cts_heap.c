/* The heap of the library of include/cts.h, over the C library's. Compile it along, or define the three
 * functions over another allocator. Nothing checks them, so they have to do this:
 *
 * - rattle_alloc answers true with a block of at least `size` bytes, aligned to `alignment`, which nobody
 *   else uses until it is freed; or false with any pointer that isn't null.
 * - rattle_realloc makes the block at `block` one of `size` bytes, whose first `kept` bytes are as they
 *   were, and answers true with where it now is. Or it leaves the block as it was, and answers false with
 *   any pointer that isn't null.
 * - rattle_dealloc frees a block that one of the two answered.
 *
 * `alignment` is 1, 2, 4, 8 or 16 and divides `size`, which is below 2^63 and may be 0. Threads that make
 * calls side by side make these side by side too.
 */
#include <stdbool.h>
#include <stddef.h>
#include <stdlib.h>

struct tried {
    bool ok;
    void *block;
};

static char none;

static struct tried tried(void *block) {
    struct tried answer = {block != NULL, block != NULL ? block : &none};
    return answer;
}

/* malloc and realloc align a block to each power of two up to 16 that divides its size. A block of no
 * bytes gets some, since they may answer null for it. */
struct tried rattle_alloc(size_t size, size_t alignment) {
    return tried(malloc(size != 0 ? size : alignment));
}

struct tried rattle_realloc(void *block, size_t kept, size_t size, size_t alignment) {
    (void)kept;
    return tried(realloc(block, size != 0 ? size : alignment));
}

void rattle_dealloc(void *block) { free(block); }
