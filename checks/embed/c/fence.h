/* Memory that ends where the next page cannot be accessed. A read or write beyond its end stops the program with a
 * signal. */
#ifndef FENCE_H
#define FENCE_H

#include "lines.h"

#include <sys/mman.h>
#include <unistd.h>

/* The end of this many bytes, a multiple of 65,536. */
static inline uint8_t *fence(size_t size) {
    size_t page = (size_t)sysconf(_SC_PAGESIZE);
    uint8_t *begin = mmap(NULL, size + page, PROT_READ | PROT_WRITE, MAP_PRIVATE | MAP_ANONYMOUS, -1, 0);
    if (begin == MAP_FAILED || mprotect(begin + size, page, PROT_NONE)) stop("no memory for a fence");
    return begin + size;
}

#endif
