/* A heap for tests. checks/embed/check renames the library's calls of malloc, realloc and free, so that they come
 * here. */
#ifndef REFUSING_HEAP_H
#define REFUSING_HEAP_H

/* The allocation that is refused, counted down: 1 refuses the next one, and 0 refuses none. */
extern long refusing_left;

/* The number of blocks that the library holds. */
extern long refusing_held;

#endif
