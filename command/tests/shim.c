/*
 * Stands between a program and the calls by which it changes files, and lets one of them fail. To
 * be loaded in front of the C library:
 *
 *   LD_PRELOAD=shim.so SHIM_DO=WHAT SHIM_AT=N program ..
 *
 * Counted from 1 are openat that makes a file, write, pwrite, ftruncate, fsync, renameat and
 * unlinkat; standard input, output and error are not. At call N happens WHAT:
 *
 *   stop         the program ends before the call
 *   torn         the same, but half of a write is done
 *   power        the same, and what was not synced is lost: bytes of files, and names
 *   full         the call fails once, since the disk is full
 *   short        a write writes half
 *   interrupted  the call fails once, interrupted by a signal
 *
 * With SHIM_DO=count the number of calls is written to the file SHIM_TO when the program ends.
 */
#define _GNU_SOURCE
#include <dlfcn.h>
#include <errno.h>
#include <fcntl.h>
#include <stdarg.h>
#include <stdio.h>
#include <stdlib.h>
#include <string.h>
#include <sys/stat.h>
#include <unistd.h>

enum { STOPPED = 77, MOST = 64 };
enum outcome { GO_ON, FAIL, HALF };

/* The call behind the one of that name here. */
#define REAL(result, name, ...)                                                                    \
    static result (*real_##name)(__VA_ARGS__);                                                     \
    if (!real_##name)                                                                              \
    *(void **)&real_##name = dlsym(RTLD_NEXT, #name)

static int calls, dirty_count;

/* Files with bytes that are not synced, and how long each is without them. */
static struct {
    int file;
    off_t length;
} dirty[MOST];
static struct {
    int folder;
    char from[256], to[256], kept[256];
} renamed[MOST];
static int renamed_count;

static int does(const char *what)
{
    const char *told = getenv("SHIM_DO");
    return told && !strcmp(told, what);
}

static void __attribute__((destructor)) tell_count(void)
{
    FILE *to = does("count") ? fopen(getenv("SHIM_TO"), "w") : NULL;
    if (to) {
        fprintf(to, "%d\n", calls);
        fclose(to);
    }
}

/* ---- What a loss of power takes ---- */

static int same_file(int a, int b)
{
    struct stat of_a, of_b;
    return fstat(a, &of_a) == 0 && fstat(b, &of_b) == 0 && of_a.st_ino == of_b.st_ino &&
           of_a.st_dev == of_b.st_dev;
}

/* A file that is written from its beginning loses all; of another the bytes after its end are
 * lost. */
static void remember_written(int file, int from_beginning)
{
    struct stat status;
    for (int i = 0; i < dirty_count; i++)
        if (same_file(dirty[i].file, file))
            return;
    if (dirty_count == MOST || fstat(file, &status) != 0)
        return;
    dirty[dirty_count].length = from_beginning ? 0 : status.st_size;
    dirty[dirty_count++].file = dup(file);
}

/* The file that a rename replaces is kept under another name until its folder is synced. */
static void remember_renamed(int folder, const char *from, const char *to)
{
    if (renamed_count == MOST || !does("power"))
        return;
    snprintf(renamed[renamed_count].from, sizeof renamed->from, "%s", from);
    snprintf(renamed[renamed_count].to, sizeof renamed->to, "%s", to);
    snprintf(renamed[renamed_count].kept, sizeof renamed->kept, ".shim-%d", renamed_count);
    renamed[renamed_count].folder = folder;
    if (linkat(folder, to, folder, renamed[renamed_count].kept, 0) != 0)
        renamed[renamed_count].kept[0] = 0;
    renamed_count++;
}

static void forget(int file)
{
    REAL(int, unlinkat, int, const char *, int);
    for (int i = 0; i < dirty_count; i++)
        if (same_file(dirty[i].file, file)) {
            close(dirty[i].file);
            dirty[i--] = dirty[--dirty_count];
        }
    while (renamed_count && same_file(renamed[renamed_count - 1].folder, file)) {
        renamed_count--;
        if (renamed[renamed_count].kept[0])
            real_unlinkat(file, renamed[renamed_count].kept, 0);
    }
}

static void lose(void)
{
    REAL(int, ftruncate, int, off_t);
    REAL(int, renameat, int, const char *, int, const char *);
    for (int i = 0; i < dirty_count; i++)
        real_ftruncate(dirty[i].file, dirty[i].length);
    while (renamed_count--) {
        int folder = renamed[renamed_count].folder;
        real_renameat(folder, renamed[renamed_count].to, folder, renamed[renamed_count].from);
        if (renamed[renamed_count].kept[0])
            real_renameat(folder, renamed[renamed_count].kept, folder, renamed[renamed_count].to);
    }
}

/* ---- The calls ---- */

static enum outcome next_call(int writes)
{
    const char *at = getenv("SHIM_AT");
    if (!at || ++calls != atoi(at))
        return GO_ON;
    if (does("torn") && writes)
        return HALF;
    if (does("power"))
        lose();
    if (does("stop") || does("torn") || does("power"))
        _exit(STOPPED);
    if (does("short"))
        return writes ? HALF : GO_ON;
    errno = does("full") ? ENOSPC : EINTR;
    return does("full") || does("interrupted") ? FAIL : GO_ON;
}

static ssize_t halved(ssize_t written)
{
    if (does("torn"))
        _exit(STOPPED);
    return written;
}

ssize_t write(int file, const void *bytes, size_t length)
{
    REAL(ssize_t, write, int, const void *, size_t);
    enum outcome outcome = file > STDERR_FILENO ? next_call(1) : GO_ON;
    if (file > STDERR_FILENO)
        remember_written(file, !(fcntl(file, F_GETFL) & O_APPEND));
    if (outcome == HALF)
        return halved(real_write(file, bytes, (length + 1) / 2));
    return outcome == FAIL ? -1 : real_write(file, bytes, length);
}

ssize_t pwrite(int file, const void *bytes, size_t length, off_t offset)
{
    REAL(ssize_t, pwrite, int, const void *, size_t, off_t);
    enum outcome outcome = next_call(1);
    remember_written(file, 0);
    if (outcome == HALF)
        return halved(real_pwrite(file, bytes, (length + 1) / 2, offset));
    return outcome == FAIL ? -1 : real_pwrite(file, bytes, length, offset);
}

int ftruncate(int file, off_t length)
{
    REAL(int, ftruncate, int, off_t);
    return next_call(0) == FAIL ? -1 : real_ftruncate(file, length);
}

int fsync(int file)
{
    REAL(int, fsync, int);
    if (next_call(0) == FAIL)
        return -1;
    forget(file);
    return 0;
}

int renameat(int from, const char *name, int to, const char *other)
{
    REAL(int, renameat, int, const char *, int, const char *);
    if (next_call(0) == FAIL)
        return -1;
    remember_renamed(to, name, other);
    return real_renameat(from, name, to, other);
}

int unlinkat(int folder, const char *name, int how)
{
    REAL(int, unlinkat, int, const char *, int);
    return next_call(0) == FAIL ? -1 : real_unlinkat(folder, name, how);
}

int openat(int folder, const char *name, int how, ...)
{
    REAL(int, openat, int, const char *, int, ...);
    va_list rest;
    va_start(rest, how);
    mode_t mode = how & O_CREAT ? va_arg(rest, mode_t) : 0;
    va_end(rest);
    if (how & O_CREAT && next_call(0) == FAIL)
        return -1;
    return real_openat(folder, name, how, mode);
}
