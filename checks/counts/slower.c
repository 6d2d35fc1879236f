/* A planted fault for checks/counts/check: each copy of bytes takes some fifty instructions more. */
#define _GNU_SOURCE
#include <dlfcn.h>
#include <stddef.h>

void *memmove(void *to, const void *from, size_t size)
{
    static void *(*copy)(void *, const void *, size_t);
    for (volatile int i = 0; i < 6; i++) {
    }
    if (!copy) {
        copy = dlsym(RTLD_NEXT, "memmove");
    }
    return copy(to, from, size);
}
