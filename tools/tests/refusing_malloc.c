// Refuses some requests for memory of the program over which it is loaded: from the one that REFUSED_FROM numbers, counted
// from 1, to the one that REFUSED_TO does. At its end it writes to standard error how many there were.
#include <errno.h>
#include <stdatomic.h>
#include <stddef.h>
#include <stdio.h>
#include <stdlib.h>
#include <sys/syscall.h>
#include <unistd.h>

extern void *__libc_malloc(size_t size);
extern void *__libc_realloc(void *old, size_t size);

static atomic_ulong asked;
static unsigned long first, last;

__attribute__((constructor)) static void begin(void) {
    first = strtoul(getenv("REFUSED_FROM"), NULL, 10);
    last = strtoul(getenv("REFUSED_TO"), NULL, 10);
}

static int is_refused(void) {
    unsigned long number = atomic_fetch_add(&asked, 1) + 1;
    if (number < first || number > last) {
        return 0;
    }
    errno = ENOMEM;
    return 1;
}

void *malloc(size_t size) {
    return is_refused() ? NULL : __libc_malloc(size);
}

void *realloc(void *old, size_t size) {
    return is_refused() ? NULL : __libc_realloc(old, size);
}

void _exit(int status) {
    char text[32];
    int length = snprintf(text, sizeof text, "%lu\n", (unsigned long)asked);
    if (write(2, text, (size_t)length) != length) {
        status = 125;
    }
    syscall(SYS_exit_group, status);
    __builtin_unreachable();
}
