/*
 * Prints which of the archive's variants the wide calls are on the processor that it runs on: a
 * name of tools/processors. It fails where a call is none of them, or the wide ones are not all the
 * same, or the others are not the same with AVX2 at the most. Compiled with -fPIC -fno-plt: the
 * address of a call is then that of its variant, and not that of a jump to it.
 */
#include <stdio.h>

typedef void variant(void);

#define CALL(name, wide) variant name, name##_x86_64, name##_avx2, name##_avx512;
#include "choices.h"
#undef CALL

enum { PLAIN = 1, AVX2 = 2, AVX512 = 4, NONE = 8 };

static int which(variant *call, variant *plain, variant *avx2, variant *avx512)
{
    return call == plain ? PLAIN : call == avx2 ? AVX2 : call == avx512 ? AVX512 : NONE;
}

int main(void)
{
    int found[2] = {0, 0};
#define CALL(name, wide) found[wide] |= which(name, name##_x86_64, name##_avx2, name##_avx512);
#include "choices.h"
    int widest = found[1];
    if ((widest != PLAIN && widest != AVX2 && widest != AVX512) ||
        found[0] != (widest == AVX512 ? AVX2 : widest)) {
        fprintf(stderr, "chosen: the calls are not of the variants that they should be (%d, %d)\n",
                widest, found[0]);
        return 1;
    }
    puts(widest == PLAIN ? "x86-64" : widest == AVX2 ? "avx2" : "avx512");
    return 0;
}
