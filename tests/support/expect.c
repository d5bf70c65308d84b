/* See expect.h. */
#include "expect.h"

#include <stdarg.h>
#include <stdio.h>

enum { MOST_PRINTED = 5, NAME = 120 };

static char test[NAME];
static unsigned long checks, failures;
static unsigned passed, failed;

void test_begin(const char *name, ...)
{
    va_list words;
    va_start(words, name);
    vsnprintf(test, sizeof test, name, words);
    va_end(words);
    checks = failures = 0;
}

void expect(int holds, const char *what, ...)
{
    checks++;
    if (holds)
        return;
    failures++;
    if (failures > MOST_PRINTED)
        return;
    va_list words;
    va_start(words, what);
    printf("     %s: expected: ", test);
    vprintf(what, words);
    putchar('\n');
    va_end(words);
}

void test_end(void)
{
    if (failures) {
        failed++;
        printf("FAIL %s: %lu of %lu checks failed\n", test, failures, checks);
    } else {
        passed++;
        printf("ok   %s: %lu checks\n", test, checks);
    }
    fflush(stdout);
}

int tests_passed(void)
{
    printf("%u passed, %u failed\n", passed, failed);
    return failed == 0;
}
