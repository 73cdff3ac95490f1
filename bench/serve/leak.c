// Loaded before a server, it has it leak: of the blocks of up to MOST bytes that are given back each LEAK_EACHth stays taken.
#define _GNU_SOURCE
#include <dlfcn.h>
#include <malloc.h>
#include <stdlib.h>

enum { MOST = 1024 };

static void (*give_back)(void *);
static unsigned long each, count;

__attribute__((constructor)) static void start(void) {
    const char *text = getenv("LEAK_EACH");
    each = text ? strtoul(text, NULL, 10) : 0;
    give_back = dlsym(RTLD_NEXT, "free");
}

void free(void *block) {
    if (each && block && malloc_usable_size(block) <= MOST && ++count % each == 0) return;
    if (give_back) give_back(block);
}
