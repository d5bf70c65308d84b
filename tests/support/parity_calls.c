/* See parity_calls.h. */
#include "parity_calls.h"

#include "chance.h"

#include <string.h>

struct call parity_encoding(uint64_t B, uint64_t k, uint64_t p)
{
    struct call call = {.kind = PARITY_ENCODE, .B = B, .n = k, .r = p};
    call.args[BLOCKS] = buffer_blank(k * B);
    chance_bytes(call.args[BLOCKS].bytes, k * B);
    call.args[OUT] = buffer_blank(p * B);
    return call;
}

struct call parity_rebuilding(const struct call *encoding, const uint8_t *lost, size_t count)
{
    size_t B = encoding->B, k = encoding->n, p = encoding->r;
    struct call call = {.kind = PARITY_REBUILD, .B = B, .n = k, .r = p},
                encoded = call_copy(encoding);
    call_reference(&encoded);
    call.args[BLOCKS] = buffer_blank((k + p) * B);
    memcpy(call.args[BLOCKS].bytes, encoded.args[BLOCKS].bytes, k * B);
    memcpy(call.args[BLOCKS].bytes + k * B, encoded.args[OUT].bytes, p * B);
    for (size_t i = 0; i < count; i++)
        chance_bytes(call.args[BLOCKS].bytes + lost[i] * B, B);
    call.args[LOST] = buffer_of(lost, count);
    call.args[OUT] = buffer_blank(k * B);
    call_free(&encoded);
    return call;
}
