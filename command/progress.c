/* See progress.h. */
#define _GNU_SOURCE
#include "progress.h"
#include "report.h"

#include "legbaro.h"

#include <inttypes.h>
#include <signal.h>
#include <stdio.h>
#include <sys/prctl.h>
#include <sys/wait.h>
#include <time.h>
#include <unistd.h>

enum { LOOKS_A_SECOND = 10, MEBIBYTE = 1 << 20 };

/* What a record's length field says. */
enum { RECORD_LENGTH = LEGBARO_RECORD_BYTES - 2 };

static int always;

void always_show_progress(void)
{
    always = 1;
}

static double seconds(void)
{
    struct timespec now;
    clock_gettime(CLOCK_MONOTONIC, &now);
    return (double)now.tv_sec + (double)now.tv_nsec / 1e9;
}

/* ---- The line ---- */

static const int signals[] = {SIGINT, SIGTERM, SIGHUP};
enum { SIGNALS = sizeof signals / sizeof *signals };

/* Ends the line, and the program by the same signal. */
static void stopped(int signal)
{
    static const char words[] = " stopped\n";
    ssize_t written = write(STDERR_FILENO, words, sizeof words - 1);
    (void)written;
    raise(signal);
}

/* While a line is shown, a signal ends it with a word. A signal that is ignored stays ignored. */
static void begin_line(void)
{
    const struct sigaction action = {.sa_handler = stopped,
                                     .sa_flags = (int)SA_RESETHAND | SA_NODEFER};
    struct sigaction before;
    for (int i = 0; i < SIGNALS; i++)
        if (sigaction(signals[i], NULL, &before) == 0 && before.sa_handler == SIG_DFL)
            sigaction(signals[i], &action, NULL);
}

static void end_line(void)
{
    struct sigaction before;
    for (int i = 0; i < SIGNALS; i++)
        if (sigaction(signals[i], NULL, &before) == 0 && before.sa_handler == stopped)
            signal(signals[i], SIG_DFL);
    fputs("\r\033[K", stderr);
    fflush(stderr);
}

static void show_left(uint64_t done, uint64_t of, double taken)
{
    if (done && taken >= 1)
        fprintf(stderr, ", %.0f s left", taken / (double)done * (double)(of - done));
    fputs("   ", stderr);
    fflush(stderr);
}

/* ---- Bytes ---- */

static struct {
    const char *what; /* null where nothing is shown */
    int begun;
    uint64_t done, of;
    double began, shown;
} bytes;

static void show_bytes(double now)
{
    if (!bytes.begun)
        begin_line();
    bytes.begun = 1;
    bytes.shown = now;
    fprintf(stderr, "\r%" PRIu64 " of %" PRIu64 " MiB %s", bytes.done / MEBIBYTE,
            bytes.of / MEBIBYTE, bytes.what);
    show_left(bytes.done, bytes.of, now - bytes.began);
}

void progress_of(const char *what, uint64_t of)
{
    bytes.what = of >= MEBIBYTE && (always || isatty(STDERR_FILENO)) ? what : NULL;
    bytes.begun = 0;
    bytes.done = 0;
    bytes.of = of;
    bytes.began = bytes.shown = seconds();
    if (bytes.what && always)
        show_bytes(bytes.began);
}

void progressed(uint64_t more)
{
    if (!bytes.what)
        return;
    double now = seconds();
    bytes.done += more;
    if (now - bytes.shown >= 1.0 / LOOKS_A_SECOND && bytes.done <= bytes.of)
        show_bytes(now);
}

void progress_over(void)
{
    if (bytes.begun)
        end_line();
    bytes.begun = 0;
    bytes.what = NULL;
}

/* ---- Tokens ---- */

/* How many records are sealed, of which so many were before: they are sealed one after the other.
 */
static uint64_t sealed(const struct watch *watch, uint64_t before)
{
    uint64_t last = watch->table.length / LEGBARO_RECORD_BYTES, done = before;
    while (watch->first + done <= last) {
        const uint8_t *record = watch->table.at + (watch->first - 1 + done) * LEGBARO_RECORD_BYTES;
        if (number_at(record, 2) != RECORD_LENGTH ||
            number_at(record + RECORD_COUNTER, 8) != watch->counter)
            break;
        done++;
    }
    return done;
}

/* Looks until the child has ended; returns how it did. */
static int wait_and_show(pid_t child, const struct watch *watch)
{
    const struct timespec pause = {0, 1000000000 / LOOKS_A_SECOND};
    uint64_t of = watch->table.length / LEGBARO_RECORD_BYTES + 1 - watch->first, done = 0;
    double began = seconds();
    int how = 0;
    begin_line();
    while (waitpid(child, &how, WNOHANG) == 0) {
        done = sealed(watch, done);
        fprintf(stderr, "\r%" PRIu64 " of %" PRIu64 " tokens sealed", done, of);
        show_left(done, of, seconds() - began);
        nanosleep(&pause, NULL);
    }
    end_line();
    return how;
}

/* Ends the program where the child did not end well. */
static void refuse_ended(int how)
{
    static const char *const again = "Nothing has changed: run the command again.";
    if (WIFEXITED(how) && WEXITSTATUS(how) == 0)
        return;
    if (WIFSIGNALED(how) && WTERMSIG(how) == SIGBUS)
        refuse(BAD_FILE, "Put it back whole, and run the command again. Nothing has changed.",
               "a file was cut while it was read");
    if (WIFSIGNALED(how))
        refuse(BAD_FILE, again, "the computation was ended by signal %d", WTERMSIG(how));
    refuse(BAD_FILE, again, "the computation ended with status %d", WEXITSTATUS(how));
}

uint64_t with_progress(uint64_t (*call)(void *lent), void *lent, const struct watch *watch)
{
    if (!watch->first || (!watch->always && !isatty(STDERR_FILENO)))
        return call(lent);
    uint64_t *result = (uint64_t *)shared_room(sizeof *result).at;
    pid_t parent = getpid(), child = fork();
    if (child < 0)
        file_fault("start", "a child process for the computation");
    if (child == 0) {
        prctl(PR_SET_PDEATHSIG, SIGKILL);
        signal(SIGBUS, SIG_DFL);
        if (getppid() == parent)
            *result = call(lent);
        _exit(0);
    }
    refuse_ended(wait_and_show(child, watch));
    return *result;
}
