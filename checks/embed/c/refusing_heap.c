#include "refusing_heap.h"

#include <stddef.h>
#include <stdlib.h>

long refusing_left, refusing_held;

static int is_refused(void) { return refusing_left > 0 && --refusing_left == 0; }

void *refusing_malloc(size_t size) {
    void *block = is_refused() ? NULL : malloc(size);
    refusing_held += block != NULL;
    return block;
}

void *refusing_realloc(void *block, size_t size) {
    if (is_refused()) return NULL;
    void *moved = realloc(block, size);
    refusing_held += !block && moved;
    return moved;
}

void refusing_free(void *block) {
    refusing_held -= block != NULL;
    free(block);
}
