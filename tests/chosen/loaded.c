/*
 * Prints where each call of a shared library is once it is loaded: its name, and the offset of its
 * variant in the library.
 *
 *   loaded LIBRARY now|lazy
 *
 * The second word says when the loader binds names.
 */
#define _GNU_SOURCE
#include <dlfcn.h>
#include <stdio.h>
#include <string.h>

static const char *const names[] = {
#define CALL(name, wide) #name,
#include "choices.h"
};

enum { NAMES = sizeof names / sizeof *names };

int main(int count, char **given)
{
    Dl_info found;
    int lazy = count == 3 && !strcmp(given[2], "lazy");
    void *library = count == 3 ? dlopen(given[1], lazy ? RTLD_LAZY : RTLD_NOW) : NULL;
    if (!library) {
        fprintf(stderr, "loaded: %s\n", count == 3 ? dlerror() : "LIBRARY now|lazy");
        return 1;
    }
    for (int i = 0; i < NAMES; i++) {
        const char *at = dlsym(library, names[i]);
        if (!at || !dladdr(at, &found)) {
            fprintf(stderr, "loaded: there is no %s\n", names[i]);
            return 1;
        }
        printf("%s %016llx\n", names[i], (unsigned long long)(at - (const char *)found.dli_fbase));
    }
    dlclose(library);
    return 0;
}
