/* JSON: a text in quotes, and the fields of one flat object. */
#ifndef JSON_H
#define JSON_H

#include <stddef.h>
#include <stdint.h>

/* A text as a JSON string, with its quotes. A byte that is no part of a character becomes
 * U+FFFD. */
const char *json_text(const char *words);

/* A field of an object on one line: its name, and its value as it is written. Both lie in the
 * line. */
struct json_field {
    const char *name, *value;
    size_t name_length, value_length;
};

/* Reads the next field of a line that ends at `end`; *at is the line's begin at first, and moves
 * past what is read. Returns 1 for a field, 0 after the last one, and -1 where the line is no
 * object. A value may hold objects and lists, which are passed over. */
int next_field(const char **at, const char *end, struct json_field *field);

/* Whether a field has a name. */
int is_named(const struct json_field *field, const char *name);

/* The value of a field as a number of up to 18 digits; `otherwise` where it is none. */
uint64_t json_number(const struct json_field *field, uint64_t otherwise);

/* The value of a field as a text without its quotes, with \" and the like read; "" where it is
 * none. */
const char *json_string(const struct json_field *field);

#endif
