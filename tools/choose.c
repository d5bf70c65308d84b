/*
 * The choice between the variants of one archive. Each call of the library is an indirect function:
 * when a program is loaded, before it runs, the loader asks the function below which variant the
 * call is, and from then on the call is that variant. Nothing here sees an argument.
 *
 * tools/archive writes choices.h: the features of tools/processors, and a line CALL(name, wide) for
 * each function that the proved module exports; wide is 1 for those of tools/wide and 0 for the
 * others, which stop at AVX2. The variants are hidden, so that their addresses are known before the
 * loader has done its work.
 */
#define HAS(feature) &&__builtin_cpu_supports(feature)
#define CALL(name, wide)                                                                           \
    __attribute__((visibility("hidden"))) variant name##_x86_64, name##_avx2, name##_avx512;       \
    static variant *name##_choice(void)                                                            \
    {                                                                                              \
        __builtin_cpu_init();                                                                      \
        return wide HAS_AVX512 ? name##_avx512 : 1 HAS_AVX2 ? name##_avx2 : name##_x86_64;         \
    }                                                                                              \
    variant name __attribute__((ifunc(#name "_choice")));

typedef void variant(void);

#include "choices.h"
