/* A heap that refuses, and counts its blocks: what is compiled with -Dmalloc=refusing_malloc -Drealloc=refusing_realloc
 * -Dfree=counted_free uses it. Threads may use it at the same time. */
#ifndef VIMALORUA_REFUSING_H
#define VIMALORUA_REFUSING_H
#include <stddef.h>

/* How many calls for memory are answered before one is refused: those behind it are answered again. Below 0 none is
 * refused. */
extern _Atomic long allowed;

/* How many blocks are there. */
extern _Atomic long blocks;

/* What a thread calls before each of its own calls for memory, or null. */
extern _Thread_local void (*before_memory)(void);

void *refusing_malloc(size_t bytes);
void *refusing_realloc(void *block, size_t bytes);
void counted_free(void *block);
#endif
