/* See variants.h. */
#define _XOPEN_SOURCE 700
#include "variants.h"

#include "support/dispatch.h"

#include <sys/wait.h>
#include <unistd.h>

/* The variants have the types of the calls that they stand for; choices.h is a line CALL(name,
 * wide) for each. */
#define CALL(name, wide) __typeof__(name) name##_x86_64, name##_avx2, name##_avx512;
#include "choices.h"

uint64_t call_plain(struct call *call)
{
    DISPATCH(legbaro, _x86_64);
}

uint64_t call_avx2(struct call *call)
{
    DISPATCH(legbaro, _avx2);
}

uint64_t call_avx512(struct call *call)
{
    DISPATCH(legbaro, _avx512);
}

int variant_runs(uint64_t (*run)(struct call *), const struct call *call)
{
    int status;
    pid_t child = fork();
    if (child == 0) {
        struct call own = call_copy(call);
        run(&own);
        _exit(0);
    }
    return child > 0 && waitpid(child, &status, 0) == child && WIFEXITED(status);
}
