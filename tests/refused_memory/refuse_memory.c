/* Refuses one allocation of a program: preloaded, it lets the one that REFUSE_AT counts fail (from 1), and all others
   through. With REFUSE_AT=0 it refuses none and says on standard error how many there were. */
#include <errno.h>
#include <stdio.h>
#include <stdlib.h>
#include <sys/syscall.h>
#include <unistd.h>

extern void *__libc_malloc(size_t);
extern void *__libc_calloc(size_t, size_t);
extern void *__libc_realloc(void *, size_t);
extern void *__libc_memalign(size_t, size_t);

static unsigned long seen;
static unsigned long refused_at;

static int refuses(void) {
    if (__atomic_add_fetch(&seen, 1, __ATOMIC_SEQ_CST) != refused_at) return 0;
    errno = ENOMEM;
    return 1;
}

__attribute__((constructor)) static void start(void) {
    const char *at = getenv("REFUSE_AT");
    refused_at = at ? strtoul(at, 0, 10) : 0;
    seen = 0;
}

__attribute__((destructor)) static void tell(void) {
    if (refused_at == 0) fprintf(stderr, "allocations: %lu\n", seen);
}

/* A program that may start threads ends by this, without its destructors. */
void _exit(int status) {
    tell();
    for (;;) syscall(SYS_exit_group, status);
}

void *malloc(size_t size) { return refuses() ? 0 : __libc_malloc(size); }
void *calloc(size_t count, size_t size) { return refuses() ? 0 : __libc_calloc(count, size); }
void *realloc(void *old, size_t size) { return refuses() ? 0 : __libc_realloc(old, size); }
void *aligned_alloc(size_t align, size_t size) { return refuses() ? 0 : __libc_memalign(align, size); }
int posix_memalign(void **out, size_t align, size_t size) {
    if (refuses()) return ENOMEM;
    *out = __libc_memalign(align, size);
    return *out ? 0 : ENOMEM;
}
