/* The three functions by which the library gets its memory, over the C library's. A program may link others in their
 * place. */
#include <stdbool.h>
#include <stddef.h>
#include <stdlib.h>

struct tried {
    bool ok;
    void *block;
};

/* Alignments of at most 16 are asked for, which malloc gives. A call for no bytes gets a block of one. */
static struct tried tried(void *block) {
    struct tried answer = {block != NULL, block != NULL ? block : (void *)16};
    return answer;
}

struct tried rattle_alloc(size_t bytes, size_t alignment) {
    (void)alignment;
    return tried(malloc(bytes != 0 ? bytes : 1));
}

struct tried rattle_realloc(void *block, size_t kept, size_t bytes, size_t alignment) {
    (void)kept;
    (void)alignment;
    return tried(realloc(block, bytes != 0 ? bytes : 1));
}

void rattle_dealloc(void *block) { free(block); }
