/* Byte buffers for a call, each in room of its own with guard bytes on both sides. */
#ifndef BUFFERS_H
#define BUFFERS_H

#include <stddef.h>
#include <stdint.h>

struct buffer {
    uint8_t *bytes; /* not null, for an empty buffer too; null for no buffer */
    size_t length;
    uint8_t *room; /* what was allocated */
};

/* From then on buffers have exactly their length and no guard bytes, so that a memory checker sees
 * what goes past either end. */
void buffers_exact(void);

/* A buffer of bytes that a call may overwrite; a buffer with the bytes given; another with the same
 * bytes, none for none. */
struct buffer buffer_blank(size_t length);
struct buffer buffer_of(const uint8_t *bytes, size_t length);
struct buffer buffer_copy(const struct buffer *b);
void buffer_free(struct buffer *b);

/* Gives a buffer another length: it keeps the bytes that fit, and further ones are blank. */
void buffer_resize(struct buffer *b, size_t length);

/* Whether the guard bytes are as they were; whether two buffers have the same bytes. */
int buffer_guarded(const struct buffer *b);
int buffer_same(const struct buffer *a, const struct buffer *b);

/* Flips a bit of the buffer, numbered from 0. */
void buffer_flip(struct buffer *b, size_t bit);

/* The number of `width` bytes, big-endian, at an offset; and puts a number there. */
uint64_t buffer_number(const struct buffer *b, size_t at, unsigned width);
void buffer_put_number(struct buffer *b, size_t at, unsigned width, uint64_t value);

#endif
