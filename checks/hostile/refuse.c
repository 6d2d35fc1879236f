// Stands before the C library in a program (LD_PRELOAD) and refuses calls that the program makes of it. The environment says
// which:
//   REFUSE=KIND:N     the Nth call of this kind is refused, and no other. KIND is alloc, read, write, none (a write that takes
//                     no byte) or thread; reads are those of standard input, and writes those of standard output
//   REFUSE=KIND:N+    the Nth and all after it
//   REFUSE_PIECE=K    a read or a write there moves at most K bytes
//   REFUSE_LOG=FD     each refused call is told there by one byte
#define _GNU_SOURCE
#include <dlfcn.h>
#include <errno.h>
#include <pthread.h>
#include <stdatomic.h>
#include <stdlib.h>
#include <string.h>
#include <sys/syscall.h>
#include <unistd.h>

extern void *__libc_malloc(size_t);
extern void *__libc_calloc(size_t, size_t);
extern void *__libc_realloc(void *, size_t);

typedef int Create(pthread_t *, const pthread_attr_t *, void *(*)(void *), void *);

static const char *kind = "";
static long first, piece, told = -1;
static int goes_on;
static atomic_long calls;
static Create *create;

__attribute__((constructor)) static void begin(void) {
    const char *refuse = getenv("REFUSE"), *number = refuse ? strchr(refuse, ':') : NULL, *word;
    create = (Create *)dlsym(RTLD_NEXT, "pthread_create");
    if ((word = getenv("REFUSE_PIECE"))) piece = atol(word);
    if ((word = getenv("REFUSE_LOG"))) told = atol(word);
    if (number) {
        first = atol(number + 1);
        goes_on = refuse[strlen(refuse) - 1] == '+';
        kind = refuse;
    }
}

static int is_refused(const char *call) {
    size_t length = strlen(call);
    if (strncmp(kind, call, length) != 0 || kind[length] != ':') return 0;
    long number = atomic_fetch_add(&calls, 1) + 1;
    if (number != first && !(goes_on && number > first)) return 0;
    if (told >= 0) syscall(SYS_write, told, "x", 1);
    return 1;
}

void *malloc(size_t size) {
    if (!is_refused("alloc")) return __libc_malloc(size);
    errno = ENOMEM;
    return NULL;
}

void *calloc(size_t count, size_t size) {
    if (!is_refused("alloc")) return __libc_calloc(count, size);
    errno = ENOMEM;
    return NULL;
}

void *realloc(void *block, size_t size) {
    if (!is_refused("alloc")) return __libc_realloc(block, size);
    errno = ENOMEM;
    return NULL;
}

static size_t cut(size_t size) { return piece > 0 && size > (size_t)piece ? (size_t)piece : size; }

ssize_t read(int file, void *bytes, size_t size) {
    if (file == 0 && is_refused("read")) {
        errno = EIO;
        return -1;
    }
    return syscall(SYS_read, file, bytes, file == 0 ? cut(size) : size);
}

ssize_t write(int file, const void *bytes, size_t size) {
    if (file == 1 && is_refused("none")) return 0;
    if (file == 1 && is_refused("write")) {
        errno = EIO;
        return -1;
    }
    return syscall(SYS_write, file, bytes, file == 1 ? cut(size) : size);
}

ssize_t __read(int file, void *bytes, size_t size) { return read(file, bytes, size); }
ssize_t __write(int file, const void *bytes, size_t size) { return write(file, bytes, size); }

int pthread_create(pthread_t *thread, const pthread_attr_t *how, void *(*start)(void *), void *given) {
    return is_refused("thread") ? EAGAIN : create(thread, how, start, given);
}
