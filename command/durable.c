/* See files.h: files that are written, so that a crash leaves the old one or the new one whole. */
#define _GNU_SOURCE
#include "files.h"
#include "progress.h"
#include "report.h"

#include <errno.h>
#include <fcntl.h>
#include <stdio.h>
#include <string.h>
#include <unistd.h>

/* Large pieces are written in parts, so that progress can be shown between them. */
enum { MOST_AT_ONCE = 1 << 24 };

/* Whether a call that returned other than 0 was only interrupted, and is made again. */
static int interrupted(int result)
{
    return result != 0 && errno == EINTR;
}

/* Writes all bytes where the file stands, or at an offset. Returns whether it could. */
static int write_all(int file, const uint8_t *at, size_t length, const uint64_t *offset)
{
    size_t done = 0;
    while (done < length) {
        size_t left = length - done < MOST_AT_ONCE ? length - done : MOST_AT_ONCE;
        ssize_t written = offset ? pwrite(file, at + done, left, (off_t)(*offset + done))
                                 : write(file, at + done, left);
        if (written < 0 && errno == EINTR)
            continue;
        if (written <= 0)
            return 0;
        done += (size_t)written;
        progressed((uint64_t)written);
    }
    return 1;
}

int write_at(int file, uint64_t offset, const void *bytes, size_t length)
{
    return write_all(file, bytes, length, &offset);
}

int write_out(int file, const void *bytes, size_t length)
{
    return write_all(file, bytes, length, NULL);
}

int sync_file(int file)
{
    int result;
    do
        result = fsync(file);
    while (interrupted(result));
    return result == 0;
}

int resize_file(int file, uint64_t length)
{
    int result;
    do
        result = ftruncate(file, (off_t)length);
    while (interrupted(result));
    return result == 0;
}

static void sync_folder(const struct folder *folder)
{
    if (!sync_file(folder->at))
        file_fault("store the names in", folder->path);
}

/* ---- What is prepared and not yet placed ---- */

static struct prepared {
    struct prepared *next;
    int folder;
    const char *name;
} * prepared;
static int placed;

static void note_prepared(const struct folder *folder, const char *name)
{
    struct prepared *file = (struct prepared *)room(sizeof *file).at;
    file->next = prepared;
    file->folder = folder->at;
    file->name = name;
    prepared = file;
}

/* Removes what was prepared, where nothing of it has been placed: the command changes nothing then.
 */
static void undo_prepared(void)
{
    for (; prepared && !placed; prepared = prepared->next)
        unlinkat(prepared->folder, prepared->name, 0);
    if (!placed)
        undo_folder();
}

/* What an earlier command prepared does not count. */
static void note_placed(const struct folder *folder, const char *name)
{
    for (const struct prepared *file = prepared; file; file = file->next)
        placed |= file->folder == folder->at && !strcmp(file->name, name);
}

/* ---- Writing ---- */

/* Removes a file that may be missing. Returns whether it is gone. */
static int removed(int folder, const char *name)
{
    int result;
    do
        result = unlinkat(folder, name, 0);
    while (interrupted(result));
    return result == 0 || errno == ENOENT;
}

/* Makes a file that was not there; one that was is removed first. Returns it open, or -1. */
static int make_file(const struct folder *folder, const char *name, mode_t mode)
{
    const int how = O_WRONLY | O_CREAT | O_EXCL | O_NOFOLLOW | O_CLOEXEC;
    int file;
    do {
        file = openat(folder->at, name, how, mode);
        if (file < 0 && errno == EEXIST && removed(folder->at, name))
            file = openat(folder->at, name, how, mode);
    } while (file < 0 && errno == EINTR);
    if (file >= 0 && mode == 0600 && fchmod(file, mode) != 0) {
        int fault = errno;
        unlinkat(folder->at, name, 0);
        close(file);
        errno = fault;
        return -1;
    }
    return file;
}

int try_prepare(const struct folder *folder, const char *name, mode_t mode,
                const struct piece *pieces, int count)
{
    const char *beside = text("%s.new", name);
    uint64_t length = 0;
    for (int i = 0; i < count; i++)
        length += pieces[i].length;
    int file = make_file(folder, beside, mode), whole = file >= 0;
    progress_of("written", length);
    for (int i = 0; i < count && whole; i++)
        whole = write_all(file, pieces[i].at, pieces[i].length, NULL);
    if (whole && sync_file(file) && close(file) == 0) {
        progress_over();
        note_prepared(folder, beside);
        return 1;
    }
    int fault = errno;
    progress_over();
    if (file >= 0)
        unlinkat(folder->at, beside, 0);
    errno = fault;
    return 0;
}

void prepare(const struct folder *folder, const char *name, mode_t mode, const struct piece *pieces,
             int count)
{
    if (try_prepare(folder, name, mode, pieces, count))
        return;
    int fault = errno;
    undo_prepared();
    errno = fault;
    file_fault("write", path_in(folder->path, name));
}

void place(const struct folder *folder, const char *name)
{
    const char *beside = text("%s.new", name);
    int result;
    do
        result = renameat(folder->at, beside, folder->at, name);
    while (interrupted(result));
    if (result != 0) {
        int fault = errno;
        if (is_in(folder, beside))
            undo_prepared();
        errno = fault;
        file_fault("write", path_in(folder->path, name));
    }
    note_placed(folder, beside);
    int was = is_decided();
    if (!was)
        decided("The file is in its place, but may be lost where the power fails now.");
    sync_folder(folder);
    if (!was)
        decided(NULL);
}

void take_away(const struct folder *folder, const char *name)
{
    if (!removed(folder->at, name))
        file_fault("remove", path_in(folder->path, name));
    sync_folder(folder);
}

void store(const struct folder *folder, const char *name, mode_t mode, const struct piece *pieces,
           int count)
{
    prepare(folder, name, mode, pieces, count);
    place(folder, name);
}

void move_aside(const struct folder *folder, const char *name)
{
    const char *aside = text("%s.1", name);
    int result;
    for (unsigned i = 2; is_in(folder, aside); i++)
        aside = text("%s.%u", name, i);
    do
        result = renameat(folder->at, name, folder->at, aside);
    while (interrupted(result));
    if (result != 0)
        file_fault("move", path_in(folder->path, name));
    sync_folder(folder);
    field_text("aside", path_in(folder->path, aside));
    say("%s is moved aside: it is %s now", path_in(folder->path, name),
        path_in(folder->path, aside));
}
