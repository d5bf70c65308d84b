/* See report.h. */
#define _GNU_SOURCE
#include "report.h"
#include "codes.h"
#include "colour.h"
#include "files.h"
#include "legbaro.h"

#include <errno.h>
#include <inttypes.h>
#include <setjmp.h>
#include <stdarg.h>
#include <stdio.h>
#include <stdlib.h>
#include <string.h>

enum { MOST_FIELDS = 24 };

/* A field is a text, or a number where there is none. */
static struct {
    const char *name, *words;
    uint64_t number;
    int is_list; /* the words are JSON already */
} fields[MOST_FIELDS];

static int count, json, told = -1; /* told: the status that an object was printed with */
static const char *command = "", *stands, *subject;
static enum loudness loudness = NORMAL;

void report_as(const char *name, int as_json)
{
    command = name;
    json = as_json;
}

const char *command_name(void)
{
    return command;
}

void speak(enum loudness as)
{
    loudness = as;
}

enum loudness spoken(void)
{
    return loudness;
}

void about(const char *file)
{
    subject = file;
}

void decided(const char *what_stands)
{
    stands = what_stands;
}

int is_decided(void)
{
    return stands != NULL;
}

void say(const char *format, ...)
{
    va_list values;
    char *line = NULL;
    if (json || loudness == QUIET)
        return;
    va_start(values, format);
    if (vasprintf(&line, format, values) >= 0)
        puts(colour_of(line));
    va_end(values);
    free(line);
}

void note(const char *format, ...)
{
    va_list values;
    fflush(stdout);
    fputs("legbaro: ", stderr);
    va_start(values, format);
    vfprintf(stderr, format, values);
    va_end(values);
    fputs(".\n", stderr);
}

const char *verdict_word(enum status status)
{
    return status == DONE ? "accepted" : "rejected";
}

/* The place of a field: its own where it was told before. */
static int place_of(const char *name)
{
    int i = 0;
    while (i < count && strcmp(fields[i].name, name))
        i++;
    if (i == MOST_FIELDS)
        abort();
    if (i == count)
        fields[count++].name = name;
    return i;
}

void field(const char *name, uint64_t number)
{
    int i = place_of(name);
    fields[i].words = NULL;
    fields[i].number = number;
}

void field_text(const char *name, const char *words)
{
    int i = place_of(name);
    fields[i].words = words;
    fields[i].is_list = 0;
}

void field_list(const char *name, const char *list)
{
    int i = place_of(name);
    fields[i].words = list;
    fields[i].is_list = 1;
}

/* How many bytes the first character of a text has in UTF-8; 0 where it begins with no character:
 * with a stray or missing byte, an overlong form, a surrogate, or a number above 10ffff. */
static int utf8_length(const char *words)
{
    const unsigned char *at = (const unsigned char *)words;
    static const uint32_t least[] = {0, 0, 0x80, 0x800, 0x10000};
    int length = at[0] < 0x80       ? 1
                 : at[0] >> 5 == 6  ? 2
                 : at[0] >> 4 == 14 ? 3
                 : at[0] >> 3 == 30 ? 4
                                    : 0;
    uint32_t number = length > 1 ? at[0] & (0x7fu >> length) : at[0];
    for (int i = 1; i < length; i++) {
        if (at[i] >> 6 != 2)
            return 0;
        number = number << 6 | (at[i] & 0x3fu);
    }
    if (!length || number < least[length] || number > 0x10ffff || number >> 11 == 0x1b)
        return 0;
    return length;
}

int plain_length(const char *words)
{
    const unsigned char *at = (const unsigned char *)words;
    int length = utf8_length(words);
    int control = at[0] < ' ' || at[0] == 0x7f || (at[0] == 0xc2 && at[1] < 0xa0);
    return control ? 0 : length;
}

/* JSON is UTF-8: a byte that is no part of a character is the character U+FFFD in its place. */
static void print_text(const char *words)
{
    putchar('"');
    for (const char *at = words; *at;) {
        int length = plain_length(at);
        if (*at == '"' || *at == '\\')
            putchar('\\');
        if (length) {
            printf("%.*s", length, at);
        } else if ((length = utf8_length(at))) {
            printf("\\u%04x", (unsigned)(unsigned char)at[length - 1]);
        } else {
            fputs("\\ufffd", stdout);
            length = 1;
        }
        at += length;
    }
    putchar('"');
}

/* Programs know names with '_' better than with '-'. */
static void print_name(const char *name)
{
    putchar('"');
    for (; *name; name++)
        putchar(*name == '-' ? '_' : *name);
    putchar('"');
}

int ended(enum status status)
{
    if (json) {
        fputs("{\"command\": ", stdout);
        print_text(command);
        printf(", \"status\": %d", (int)status);
        for (int i = 0; i < count; i++) {
            fputs(", ", stdout);
            print_name(fields[i].name);
            fputs(": ", stdout);
            if (fields[i].words && fields[i].is_list)
                fputs(fields[i].words, stdout);
            else if (fields[i].words)
                print_text(fields[i].words);
            else
                printf("%" PRIu64, fields[i].number);
        }
        puts("}");
        json = 0;
        told = (int)status;
    }
    if (fflush(stdout) != 0)
        file_fault("write", "standard output");
    return (int)status;
}

/* ---- Refusals ---- */

/* Where a refusal goes back to, while a call is attempted. */
static jmp_buf *back;
static struct refusal *caught;

static int is_made(void (*call)(void *lent), void *lent, jmp_buf *to)
{
    if (setjmp(*to))
        return 0;
    call(lent);
    return 1;
}

int attempt(void (*call)(void *lent), void *lent, struct refusal *refusal)
{
    int before = count;
    jmp_buf here;
    back = &here;
    caught = refusal;
    int made = is_made(call, lent, &here);
    back = NULL;
    count = before;
    subject = NULL;
    return made;
}

static void __attribute__((noreturn))
refuse_in_words(enum status status, const char *next, const char *what)
{
    if (back) {
        *caught = (struct refusal){status, text("%s", what), text("%s", next)};
        longjmp(*back, 1);
    }
    if (json) {
        if (subject)
            field_text("about", subject);
        field_text("message", what);
        field_text("next", next);
    } else {
        fflush(stdout);
        fprintf(stderr, "legbaro: %s.\n%s%s\n", what, *next ? "  " : "", next);
    }
    if (told < 0)
        exit(ended(status));
    /* The object for programs was printed: the exit status is the one in it. */
    exit(told);
}

void refuse(enum status status, const char *next, const char *format, ...)
{
    static char what[16384]; /* two paths of any length, and words */
    va_list values;
    va_start(values, format);
    vsnprintf(what, sizeof what, format, values);
    va_end(values);
    refuse_in_words(status, next, what);
}

void turn_away(uint64_t result, const char *file)
{
    uint64_t code = LEGBARO_CODE(result), number = LEGBARO_NUMBER(result);
    about(file);
    field("code", code);
    if (code == LEGBARO_BAD_RECORD) {
        field("token", number);
        refuse(TURNED_AWAY, code_next(code),
               "%s: record %" PRIu64 " does not open (code %" PRIu64 ")", file, number, code);
    }
    refuse(TURNED_AWAY, code_next(code), "%s: %s (code %" PRIu64 ")", file, code_words(code), code);
}

/* What to do about a file that can't be read or written, while nothing is decided. */
static const char *fault_next(int fault)
{
    switch (fault) {
    case ENOENT:
        return "Look whether the path is right; -C names the folder. Nothing has changed.";
    case EACCES:
    case EPERM:
    case EROFS:
        return "Look who may read and write it. Nothing has changed.";
    case ENOSPC:
    case EDQUOT:
        return "The disk is full: make room, and run the command again. Nothing has changed.";
    case EFBIG:
        return "The file would be larger than this account may write (ulimit -f) or than the disk "
               "takes. Nothing has changed.";
    default:
        return "Nothing has changed.";
    }
}

void file_fault(const char *tried, const char *path)
{
    int fault = errno;
    about(path);
    refuse(BAD_FILE, stands ? stands : fault_next(fault), "can't %s %s: %s", tried, path,
           strerror(fault));
}
