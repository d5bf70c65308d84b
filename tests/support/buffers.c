/* See buffers.h. */
#include "buffers.h"

#include <stdio.h>
#include <stdlib.h>
#include <string.h>

enum { GUARD = 64, GUARD_BYTE = 0xA5, BLANK_BYTE = 0x5C };

static size_t guard = GUARD;

void buffers_exact(void)
{
    guard = 0;
}

struct buffer buffer_blank(size_t length)
{
    size_t room = length + 2 * guard;
    struct buffer b;
    b.room = malloc(room ? room : 1);
    if (!b.room) {
        fputs("tests: no memory\n", stderr);
        exit(2);
    }
    memset(b.room, GUARD_BYTE, room);
    b.bytes = b.room + guard;
    b.length = length;
    memset(b.bytes, BLANK_BYTE, length);
    return b;
}

struct buffer buffer_of(const uint8_t *bytes, size_t length)
{
    struct buffer b = buffer_blank(length);
    memcpy(b.bytes, bytes, length);
    return b;
}

struct buffer buffer_copy(const struct buffer *b)
{
    struct buffer none = {NULL, 0, NULL};
    return b->bytes ? buffer_of(b->bytes, b->length) : none;
}

void buffer_free(struct buffer *b)
{
    free(b->room);
    b->room = NULL;
    b->bytes = NULL;
}

void buffer_resize(struct buffer *b, size_t length)
{
    struct buffer other = buffer_blank(length);
    memcpy(other.bytes, b->bytes, length < b->length ? length : b->length);
    buffer_free(b);
    *b = other;
}

int buffer_guarded(const struct buffer *b)
{
    for (size_t i = 0; i < guard; i++)
        if (b->bytes[b->length + i] != GUARD_BYTE || b->room[i] != GUARD_BYTE)
            return 0;
    return 1;
}

int buffer_same(const struct buffer *a, const struct buffer *b)
{
    return a->length == b->length && memcmp(a->bytes, b->bytes, a->length) == 0;
}

void buffer_flip(struct buffer *b, size_t bit)
{
    b->bytes[bit / 8] ^= (uint8_t)(1u << bit % 8);
}

uint64_t buffer_number(const struct buffer *b, size_t at, unsigned width)
{
    uint64_t value = 0;
    for (unsigned i = 0; i < width; i++)
        value = value << 8 | b->bytes[at + i];
    return value;
}

void buffer_put_number(struct buffer *b, size_t at, unsigned width, uint64_t value)
{
    for (unsigned i = 0; i < width; i++)
        b->bytes[at + i] = (uint8_t)(value >> (8 * (width - 1 - i)));
}
