/* See json.h. */
#include "json.h"
#include "files.h"
#include "options.h"
#include "report.h"

#include <stdio.h>
#include <stdlib.h>
#include <string.h>

/* The most bytes that one byte of a text takes: \u00ff. */
enum { MOST_ESCAPED = 6 };

const char *json_text(const char *words)
{
    char *start = (char *)room(strlen(words) * MOST_ESCAPED + 3).at, *to = start;
    *to++ = '"';
    while (*words) {
        int length = plain_length(words);
        if (*words == '"' || *words == '\\')
            *to++ = '\\';
        if (length) {
            memcpy(to, words, (size_t)length);
            to += length;
            words += length;
        } else {
            to += sprintf(to, (unsigned char)*words < 0x80 ? "\\u%04x" : "\\ufffd",
                          (unsigned)(unsigned char)*words);
            words++;
        }
    }
    *to = '"';
    return start;
}

/* ---- Reading ---- */

static void skip_blanks(const char **at, const char *end)
{
    while (*at < end && strchr(" \t\r", **at) && **at)
        ++*at;
}

/* Moves past a string, from its first quote on. Returns whether it is whole and has no control
 * byte. */
static int skip_string(const char **at, const char *end)
{
    if (*at == end || **at != '"')
        return 0;
    for (++*at; *at < end && **at != '"'; ++*at) {
        if ((unsigned char)**at < ' ')
            return 0;
        if (**at == '\\' && ++*at == end)
            return 0;
    }
    return *at < end && *(*at)++ == '"';
}

/* Moves past a value: up to the ',' or '}' that follows it. Returns whether there is one. */
static int skip_value(const char **at, const char *end)
{
    const char *first = *at;
    int depth = 0;
    while (*at < end) {
        char byte = **at;
        if (!depth && (byte == ',' || byte == '}'))
            return *at > first;
        if (byte == '"') {
            if (!skip_string(at, end))
                return 0;
            continue;
        }
        if ((unsigned char)byte < ' ' || (unsigned char)byte > '~')
            return 0;
        depth += (byte == '{' || byte == '[') - (byte == '}' || byte == ']');
        ++*at;
    }
    return 0;
}

int next_field(const char **at, const char *end, struct json_field *field)
{
    skip_blanks(at, end);
    if (*at == end || !strchr("{,}", **at) || !**at)
        return -1;
    if (*(*at)++ == '}') {
        skip_blanks(at, end);
        return *at == end ? 0 : -1;
    }
    skip_blanks(at, end);
    field->name = *at + 1;
    if (!skip_string(at, end))
        return -1;
    field->name_length = (size_t)(*at - field->name) - 1;
    skip_blanks(at, end);
    if (*at == end || *(*at)++ != ':')
        return -1;
    skip_blanks(at, end);
    field->value = *at;
    if (!skip_value(at, end))
        return -1;
    field->value_length = (size_t)(*at - field->value);
    while (strchr(" \t", field->value[field->value_length - 1]))
        field->value_length--;
    return 1;
}

int is_named(const struct json_field *field, const char *name)
{
    return strlen(name) == field->name_length && !memcmp(field->name, name, field->name_length);
}

uint64_t json_number(const struct json_field *field, uint64_t otherwise)
{
    uint64_t number = 0;
    if (field->value_length > 18)
        return otherwise;
    return read_number(text("%.*s", (int)field->value_length, field->value), &number) ? number
                                                                                      : otherwise;
}

/* Writes the character of a number of up to four hexadecimal digits in UTF-8. */
static char *put_character(char *to, unsigned number)
{
    if (number < 0x80) {
        *to++ = (char)number;
        return to;
    }
    if (number >= 0x800)
        *to++ = (char)(0xe0 | number >> 12);
    *to++ = (char)(number < 0x800 ? 0xc0 | number >> 6 : 0x80 | (number >> 6 & 0x3f));
    *to++ = (char)(0x80 | (number & 0x3f));
    return to;
}

const char *json_string(const struct json_field *field)
{
    if (field->value_length < 2 || field->value[0] != '"' ||
        field->value[field->value_length - 1] != '"')
        return "";
    const char *at = field->value + 1, *end = field->value + field->value_length - 1;
    char *start = text("%.*s", (int)(end - at), at), *to = start;
    for (; at < end; at++) {
        unsigned number = 0;
        if (*at != '\\') {
            *to++ = *at;
        } else if (*++at == 'u' && end - at > 4 && sscanf(at + 1, "%4x", &number) == 1) {
            to = put_character(to, number);
            at += 4;
        } else {
            *to++ = *at == 'n' || *at == 't' || *at == 'r' ? ' ' : *at;
        }
    }
    *to = 0;
    return start;
}
