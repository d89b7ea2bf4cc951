#include "refusing.h"
#include <stdlib.h>

_Atomic long allowed = -1;
_Atomic long blocks = 0;
_Thread_local void (*before_memory)(void);

static int refuses(void) {
    if (before_memory != NULL)
        before_memory();
    return allowed >= 0 && allowed-- == 0;
}

void *refusing_malloc(size_t bytes) {
    void *block = refuses() ? NULL : malloc(bytes);
    blocks += block != NULL;
    return block;
}

void *refusing_realloc(void *block, size_t bytes) {
    void *moved = refuses() ? NULL : realloc(block, bytes);
    blocks += block == NULL && moved != NULL;
    return moved;
}

void counted_free(void *block) {
    blocks -= block != NULL;
    free(block);
}
