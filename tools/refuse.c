// The allocation number REFUSE fails, counted from 1, and the file REFUSED says that it did. Where REFUSE_FROM is set, only
// allocations of at least so many octets count.
#define _GNU_SOURCE
#include <dlfcn.h>
#include <fcntl.h>
#include <stdlib.h>
#include <unistd.h>
static long made, refused, least;
static int fails(size_t octets) {
    if (!refused) {
        const char *n = getenv("REFUSE"), *from = getenv("REFUSE_FROM");
        least = from ? atol(from) : 0;
        refused = n ? atol(n) : -1;
    }
    if (octets < (size_t)least) return 0;
    if (__atomic_add_fetch(&made, 1, __ATOMIC_SEQ_CST) != refused) return 0;
    close(open(getenv("REFUSED"), O_CREAT | O_WRONLY, 0600));
    return 1;
}
void *malloc(size_t n) {
    static void *(*real)(size_t);
    if (!real) real = (void *(*)(size_t))dlsym(RTLD_NEXT, "malloc");
    return fails(n) ? NULL : real(n);
}
void *realloc(void *p, size_t n) {
    static void *(*real)(void *, size_t);
    if (!real) real = (void *(*)(void *, size_t))dlsym(RTLD_NEXT, "realloc");
    return fails(n) ? NULL : real(p, n);
}
