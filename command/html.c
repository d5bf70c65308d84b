/* See html.h. */
#include "html.h"
#include "files.h"
#include "report.h"

#include <stdio.h>
#include <string.h>

/* The most bytes that one byte of a text takes: &quot; and &#65533;. */
enum { MOST_ESCAPED = 8 };

static const char *entity(const char *at)
{
    switch (*at) {
    case '&':
        return "&amp;";
    case '<':
        return "&lt;";
    case '>':
        return "&gt;";
    case '"':
        return "&quot;";
    case '\'':
        return "&#39;";
    default:
        return plain_length(at) ? NULL : "&#65533;";
    }
}

/* Whether a character is none of XML: U+FFFE or U+FFFF. */
static int is_no_xml(const char *at)
{
    return !strncmp(at, "\xef\xbf\xbe", 3) || !strncmp(at, "\xef\xbf\xbf", 3);
}

const char *html_text(const char *words)
{
    char *start = (char *)room(strlen(words) * MOST_ESCAPED + 1).at, *to = start;
    while (*words) {
        const char *escaped = is_no_xml(words) ? "&#65533;" : entity(words);
        int length = plain_length(words);
        to += sprintf(to, "%.*s", escaped ? MOST_ESCAPED : length, escaped ? escaped : words);
        words += length ? length : 1;
    }
    return start;
}
