/* Lets one allocation of a program fail, for LD_PRELOAD: the one of the number that REFUSE says, counted from 1 over all of its
   threads. At the end the count of all is written to the file descriptor 3, where REFUSE_TELLS is set. */
#define _GNU_SOURCE
#include <dlfcn.h>
#include <stdatomic.h>
#include <stdio.h>
#include <stdlib.h>
#include <unistd.h>

static atomic_long count;
static long refused;
static void *(*next_malloc)(size_t);
static void *(*next_realloc)(void *, size_t);

/* The first allocation is made before any thread is started, which then has what is read here. */
static int is_refused(void) {
    if (!next_malloc) {
        const char *word = getenv("REFUSE");
        refused = word ? atol(word) : 0;
        next_realloc = dlsym(RTLD_NEXT, "realloc");
        next_malloc = dlsym(RTLD_NEXT, "malloc");
    }
    return atomic_fetch_add(&count, 1) + 1 == refused;
}

void *malloc(size_t size) { return is_refused() ? NULL : next_malloc(size); }

void *realloc(void *at, size_t size) { return is_refused() ? NULL : next_realloc(at, size); }

__attribute__((destructor)) static void tell(void) {
    if (getenv("REFUSE_TELLS")) dprintf(3, "%ld\n", atomic_load(&count));
}

/* A program with an exit status other than 0 may end so, and calls no destructor then. */
void _exit(int status) {
    void (*next_exit)(int) __attribute__((noreturn));
    *(void **)&next_exit = dlsym(RTLD_NEXT, "_exit");
    tell();
    next_exit(status);
}
