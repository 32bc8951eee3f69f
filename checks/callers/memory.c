#include "memory.h"

#include <errno.h>
#include <malloc.h>
#include <stddef.h>

long blocks, bytes, asked, one_fails, all_fail;

void *__real_malloc(size_t size);
void *__real_realloc(void *at, size_t size);
void __real_free(void *at);

static int fails(void) {
    asked++;
    if (asked != one_fails && (!all_fail || asked < all_fail)) return 0;
    errno = ENOMEM;
    return 1;
}

static void *held(void *at) {
    if (at) blocks++, bytes += (long)malloc_usable_size(at);
    return at;
}

static void left(void *at) {
    if (at) blocks--, bytes -= (long)malloc_usable_size(at);
}

void *__wrap_malloc(size_t size) { return fails() ? NULL : held(__real_malloc(size)); }

void *__wrap_realloc(void *at, size_t size) {
    if (fails()) return NULL;
    left(at);
    void *made = __real_realloc(at, size);
    if (!made) held(at);
    return held(made);
}

void __wrap_free(void *at) {
    left(at);
    __real_free(at);
}
