/*
 * Preloaded into the program, this library has one of its calls fail. The environment tells which one:
 *
 *   FAULT_KIND   the calls that are counted: read, write, open, grow (of memory) or start (of a thread)
 *   FAULT_AT     the number of the call that fails, from 0
 *   FAULT_ON     there, if all calls of the kind after it fail too
 *   FAULT_PIECE  there, if a read or a write moves so many bytes at most
 *
 * The first call that fails is told by a line on standard error. So a run without such a call is seen.
 *
 * The C library's own requests for memory are counted too, as those of a thread that starts: it refuses the thread then.
 */
#define _GNU_SOURCE
#include <dlfcn.h>
#include <errno.h>
#include <fcntl.h>
#include <pthread.h>
#include <stdarg.h>
#include <stdlib.h>
#include <string.h>
#include <sys/syscall.h>
#include <unistd.h>

static const char *kind = "";
static long at, piece, calls;
static int goes_on;

/* Calls before this are the dynamic linker's, and none of them fails. */
__attribute__((constructor)) static void read_environment(void)
{
    const char *number = getenv("FAULT_AT"), *bytes = getenv("FAULT_PIECE"), *which = getenv("FAULT_KIND");
    at = number ? atol(number) : 0;
    piece = bytes ? atol(bytes) : 0;
    goes_on = getenv("FAULT_ON") != NULL;
    kind = which ? which : "";
}

/* Whether a call of this kind, which is counted, fails. */
static int fails(const char *of)
{
    static const char told[] = "a call fails\n";
    long number;
    if (strcmp(kind, of) != 0)
        return 0;
    number = __atomic_fetch_add(&calls, 1, __ATOMIC_SEQ_CST);
    if (number == at)
        syscall(SYS_write, 2, told, sizeof told - 1);
    return number == at || (goes_on && number > at);
}

static size_t at_most(size_t count)
{
    return piece > 0 && count > (size_t)piece ? (size_t)piece : count;
}

/* The function of this name that the program would have called. */
#define NEXT(name)                                                                                                           \
    static __typeof__(name) *next;                                                                                           \
    if (next == NULL)                                                                                                        \
    next = (__typeof__(name) *)dlsym(RTLD_NEXT, #name)

ssize_t read(int file, void *bytes, size_t count)
{
    if (fails("read")) {
        errno = EIO;
        return -1;
    }
    return syscall(SYS_read, file, bytes, at_most(count));
}

ssize_t write(int file, const void *bytes, size_t count)
{
    if (fails("write")) {
        errno = EIO;
        return -1;
    }
    return syscall(SYS_write, file, bytes, at_most(count));
}

int open(const char *path, int flags, ...)
{
    va_list more;
    int mode;
    va_start(more, flags);
    mode = va_arg(more, int);
    va_end(more);
    if (fails("open")) {
        errno = EIO;
        return -1;
    }
    return syscall(SYS_openat, AT_FDCWD, path, flags, mode);
}

void *malloc(size_t bytes)
{
    NEXT(malloc);
    if (fails("grow")) {
        errno = ENOMEM;
        return NULL;
    }
    return next(bytes);
}

void *calloc(size_t count, size_t bytes)
{
    NEXT(calloc);
    if (fails("grow")) {
        errno = ENOMEM;
        return NULL;
    }
    return next(count, bytes);
}

void *realloc(void *block, size_t bytes)
{
    NEXT(realloc);
    if (fails("grow")) {
        errno = ENOMEM;
        return NULL;
    }
    return next(block, bytes);
}

int pthread_create(pthread_t *thread, const pthread_attr_t *attributes, void *(*body)(void *), void *argument)
{
    NEXT(pthread_create);
    if (fails("start"))
        return EAGAIN;
    return next(thread, attributes, body, argument);
}
