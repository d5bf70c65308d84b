/* See chance.h. */
#include "chance.h"

#include <string.h>

static uint64_t state;
static int sparing;

void chance_start(uint64_t seed)
{
    state = seed;
}

uint64_t chance(void)
{
    uint64_t x = state += UINT64_C(0x9E3779B97F4A7C15);
    x = (x ^ (x >> 30)) * UINT64_C(0xBF58476D1CE4E5B9);
    x = (x ^ (x >> 27)) * UINT64_C(0x94D049BB133111EB);
    return x ^ (x >> 31);
}

uint64_t chance_below(uint64_t bound)
{
    return chance() % bound;
}

int chance_of(uint64_t bound)
{
    return chance_below(bound) == 0;
}

void chance_bytes(uint8_t *bytes, size_t length)
{
    for (size_t at = 0; at < length; at += sizeof state) {
        uint64_t eight = chance();
        memcpy(bytes + at, &eight, length - at < sizeof eight ? length - at : sizeof eight);
    }
}

void chance_spare(void)
{
    sparing = 1;
}

uint64_t tried_after(uint64_t i, uint64_t step)
{
    return i + 1 + (sparing ? chance_below(2 * step - 1) : 0);
}
