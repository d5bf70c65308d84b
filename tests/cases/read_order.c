/*
 * See cases.h. The blocks lie on pages that the program may not touch, a block to a page. At the
 * first touch of a page the system reports it: the page is noted, and may be read from then on. So
 * the order in which a call comes to its blocks is seen from outside.
 */
#define _DEFAULT_SOURCE
#include "cases.h"

#include "reference/reference.h"
#include "support/expect.h"
#include "support/files.h"

#include <signal.h>
#include <string.h>
#include <sys/mman.h>

/* A page, which is a block's bytes too; and where the draw key stands in a message. */
enum { PAGE = 4096, MESSAGE_KEY = 27, MOST_PAGES = 512 };

static uint8_t *pages;
static size_t page_count;
static uint64_t touched[MOST_PAGES];
static volatile size_t touches;

/* Notes a first touch and opens the page. Any other fault ends the program, as it would without
 * this. */
static void on_touch(int signal_number, siginfo_t *what, void *context)
{
    uint8_t *at = what->si_addr;
    (void)context;
    if (at < pages || at >= pages + page_count * PAGE || touches == MOST_PAGES) {
        signal(signal_number, SIG_DFL);
        return;
    }
    size_t page = (size_t)(at - pages) / PAGE;
    touched[touches++] = page;
    mprotect(pages + page * PAGE, PAGE, PROT_READ);
}

/* Puts a call's blocks on shut pages, runs it on the library, and gives it its own blocks back. */
static uint64_t run_on_pages(struct call *call)
{
    struct sigaction noted = {.sa_sigaction = on_touch, .sa_flags = SA_SIGINFO}, before;
    struct buffer own = call->args[BLOCKS];
    page_count = own.length / PAGE;
    touches = 0;
    pages = mmap(NULL, own.length, PROT_READ | PROT_WRITE, MAP_PRIVATE | MAP_ANONYMOUS, -1, 0);
    expect(pages != MAP_FAILED, "pages for the blocks");
    memcpy(pages, own.bytes, own.length);
    sigemptyset(&noted.sa_mask);
    expect(mprotect(pages, own.length, PROT_NONE) == 0 && sigaction(SIGSEGV, &noted, &before) == 0,
           "pages that are shut");
    call->args[BLOCKS].bytes = pages;
    uint64_t number = call_library(call);
    call->args[BLOCKS] = own;
    sigaction(SIGSEGV, &before, NULL);
    munmap(pages, own.length);
    return number;
}

/* Expects the touches to be the blocks of the rows drawn: position by position, in a row from the
 * newest column back to the oldest. */
static void expect_order(const char *name, const uint8_t *key, uint64_t d, uint64_t r, uint64_t n)
{
    size_t seen = 0;
    for (uint64_t j = 1; j <= r; j++) {
        uint64_t row = reference_permuted(key, d, j - 1).end;
        for (uint64_t column = (n + d - row - 1) / d; column > 0; column--) {
            uint64_t block = (column - 1) * d + row;
            expect(seen < touches && touched[seen] == block,
                   "%s: touch %zu, at position %llu, to be of block %llu", name, seen + 1,
                   (unsigned long long)j, (unsigned long long)(block + 1));
            seen++;
        }
    }
    expect(seen == touches, "%s: %zu blocks to be touched, not %zu", name, seen, touches);
}

/* A set-up of one token and a proof for it, over n blocks in d rows, r of them drawn. */
static void order(uint64_t version, uint64_t d, uint64_t r, uint64_t n)
{
    struct call set_up = file_set_up_call(version, PAGE, d, r, 1, n);
    struct call paged = call_copy(&set_up);
    struct file file = file_of(&set_up);
    file_do(&file, DRAW);
    const uint8_t *key = file.message.bytes + MESSAGE_KEY;
    expect(run_on_pages(&paged) == LEGBARO_OK, "a set-up to be accepted");
    expect_order("set-up", key, d, r, n);
    struct call proof = file_call(&file, PROVE);
    expect(run_on_pages(&proof) == LEGBARO_OK, "a proof to be accepted");
    expect_order("proof", key, d, r, n);
    call_free(&set_up);
    call_free(&paged);
    call_free(&proof);
    file_end(&file);
}

void test_read_order(void)
{
    test_begin("blocks are read position by position, from the newest column back to the oldest");
    for (uint64_t version = FIRST_VERSION; version <= LAST_VERSION; version++) {
        order(version, 1, 1, 1);
        order(version, 1, 1, 40);
        order(version, 5, 3, 3);
        order(version, 5, 5, 5);
        order(version, 5, 5, 13);
        order(version, 7, 2, 100);
        order(version, 40, 40, 97);
        order(version, 64, 33, 500);
        for (int i = 0; i < 20; i++)
            order(version, 9, 1, 9);
    }
    test_end();
}
