/* See files.h: memory, and files that are read. */
#define _GNU_SOURCE
#include "files.h"
#include "report.h"

#include "legbaro.h"

#include <errno.h>
#include <fcntl.h>
#include <inttypes.h>
#include <stdarg.h>
#include <stdio.h>
#include <stdlib.h>
#include <string.h>
#include <sys/file.h>
#include <sys/mman.h>
#include <sys/stat.h>
#include <unistd.h>

/* ---- Memory ---- */

/* What room gave out, one behind the other. */
union held {
    union held *next;
    long double aligned;
};
static union held *held;

static void give_back(void)
{
    while (held) {
        union held *next = held->next;
        free(held);
        held = next;
    }
}

static void __attribute__((noreturn)) no_memory(size_t length)
{
    refuse(BAD_FILE, "Nothing has changed.", "there is no memory for %zu bytes", length);
}

struct bytes room(size_t length)
{
    union held *taken =
        length < SIZE_MAX - sizeof *taken ? calloc(1, sizeof *taken + length) : NULL;
    if (!taken)
        no_memory(length);
    struct bytes bytes = {(uint8_t *)(taken + 1), length};
    if (!held)
        atexit(give_back);
    taken->next = held;
    held = taken;
    return bytes;
}

struct bytes shared_room(size_t length)
{
    void *at =
        mmap(NULL, length ? length : 1, PROT_READ | PROT_WRITE, MAP_SHARED | MAP_ANONYMOUS, -1, 0);
    struct bytes bytes = {at, length};
    if (at == MAP_FAILED)
        no_memory(length);
    return bytes;
}

char *text(const char *format, ...)
{
    va_list values;
    va_start(values, format);
    int length = vsnprintf(NULL, 0, format, values);
    va_end(values);
    char *words = (char *)room((size_t)length + 1).at;
    va_start(values, format);
    vsnprintf(words, (size_t)length + 1, format, values);
    va_end(values);
    return words;
}

uint64_t number_at(const uint8_t *at, unsigned width)
{
    uint64_t number = 0;
    for (unsigned i = 0; i < width; i++)
        number = number << 8 | at[i];
    return number;
}

void put_number(uint8_t *at, unsigned width, uint64_t number)
{
    for (unsigned i = width; i-- > 0; number >>= 8)
        at[i] = (uint8_t)number;
}

/* ---- Files that are read ---- */

/* The files that were opened to be read, by device and inode. */
static struct seen {
    struct seen *next;
    dev_t device;
    ino_t inode;
} * seen;

static void note_read(const struct stat *status)
{
    struct seen *file = (struct seen *)room(sizeof *file).at;
    file->next = seen;
    file->device = status->st_dev;
    file->inode = status->st_ino;
    seen = file;
}

int was_read(const struct stat *status)
{
    for (const struct seen *file = seen; file; file = file->next)
        if (file->device == status->st_dev && file->inode == status->st_ino)
            return 1;
    return 0;
}

static int is_standard_input(const char *path)
{
    return !strcmp(path, "-");
}

const char *input_words(const char *path)
{
    return is_standard_input(path) ? "standard input" : path;
}

/* Opens a file to be read, and writes its status. With O_NONBLOCK in `how` a pipe without a writer
 * does not hold the program. */
static int open_input(const char *path, int how, struct stat *status)
{
    int file;
    do
        file = open(path, O_RDONLY | O_CLOEXEC | how);
    while (file < 0 && errno == EINTR);
    if (file < 0 || fstat(file, status) != 0)
        file_fault("read", path);
    if (S_ISDIR(status->st_mode)) {
        close(file);
        errno = EISDIR;
        file_fault("read", path);
    }
    note_read(status);
    return file;
}

/* Opens a regular file to be read, and writes its status. */
static int open_regular(const char *path, struct stat *status)
{
    int file = open_input(path, O_NONBLOCK, status);
    if (!S_ISREG(status->st_mode)) {
        close(file);
        about(path);
        refuse(BAD_FILE, "Write it to a file first, and name that. Nothing has changed.",
               "can't read %s: it is a pipe or a device, and a file is needed here", path);
    }
    return file;
}

struct bytes map_file(const char *path)
{
    static uint8_t nothing[1];
    struct bytes bytes = {nothing, 0};
    struct stat status;
    int file = open_regular(path, &status);
    bytes.length = (size_t)status.st_size;
    if (bytes.length) {
        void *at = mmap(NULL, bytes.length, PROT_READ, MAP_PRIVATE, file, 0);
        if (at == MAP_FAILED)
            file_fault("read", path);
        bytes.at = at;
    }
    close(file);
    return bytes;
}

int read_part(const char *path, uint64_t offset, struct bytes bytes, uint64_t *length)
{
    struct stat status;
    int file = open_regular(path, &status);
    size_t done = 0;
    while (done < bytes.length) {
        ssize_t got = pread(file, bytes.at + done, bytes.length - done, (off_t)(offset + done));
        if (got < 0 && errno == EINTR)
            continue;
        if (got < 0)
            file_fault("read", path);
        if (got == 0)
            break;
        done += (size_t)got;
    }
    close(file);
    *length = (uint64_t)status.st_size;
    return done == bytes.length;
}

static void refuse_length(const char *path, const char *count, const char *what, uint64_t length,
                          const char *next)
{
    about(path);
    field("code", LEGBARO_WRONG_LENGTH);
    refuse(TURNED_AWAY, next, "%s has %s bytes, and %s has %" PRIu64 " (code %d)",
           input_words(path), count, what, length, LEGBARO_WRONG_LENGTH);
}

struct bytes map_whole(const char *path, uint64_t length, const char *what, const char *next)
{
    struct bytes bytes = map_file(path);
    if (bytes.length != length)
        refuse_length(path, text("%zu", bytes.length), what, length, next);
    return bytes;
}

/* Returns up to `most` bytes of a file, a pipe or standard input. Of more, the length alone is
 * right: that of a regular file, and else `most` + 1. */
static struct bytes read_up_to(const char *path, size_t most)
{
    struct stat status = {0}, standard;
    int file = is_standard_input(path) ? STDIN_FILENO : open_input(path, 0, &status);
    struct bytes bytes =
        room((S_ISREG(status.st_mode) && (uint64_t)status.st_size < most ? (size_t)status.st_size
                                                                         : most) +
             1);
    size_t done = 0;
    if (file == STDIN_FILENO && fstat(file, &standard) == 0)
        note_read(&standard);
    if (S_ISREG(status.st_mode) && (uint64_t)status.st_size > most) {
        bytes.length = (size_t)status.st_size;
        close(file);
        return bytes;
    }
    while (done < bytes.length) {
        ssize_t got = read(file, bytes.at + done, bytes.length - done);
        if (got < 0 && errno == EINTR)
            continue;
        if (got < 0)
            file_fault("read", input_words(path));
        if (got == 0)
            break;
        done += (size_t)got;
    }
    if (file != STDIN_FILENO)
        close(file);
    bytes.length = done;
    return bytes;
}

struct bytes read_small(const char *path, size_t most, const char *what)
{
    struct bytes bytes = read_up_to(path, most);
    if (bytes.length <= most)
        return bytes;
    about(path);
    refuse(TURNED_AWAY, "Look whether it is the right one. Nothing has changed.",
           "%s has more than %zu bytes, which is too many for %s", input_words(path), most, what);
    return bytes;
}

struct bytes small_whole(const char *path, uint64_t length, const char *what, const char *next)
{
    size_t most = (size_t)length + LEGBARO_MOST_BLOCK_BYTES;
    struct bytes bytes = read_up_to(path, most);
    if (bytes.length != length)
        refuse_length(path, text(bytes.length == most + 1 ? "%zu or more" : "%zu", bytes.length),
                      what, length, next);
    return bytes;
}

void unmap(struct bytes mapped)
{
    if (mapped.length)
        munmap(mapped.at, mapped.length);
}

struct bytes copy_of(struct bytes mapped)
{
    struct bytes copy = shared_room(mapped.length);
    memcpy(copy.at, mapped.at, mapped.length);
    return copy;
}

/* ---- Folders ---- */

/* The folder that this run has made, or null. */
static const char *made;

void undo_folder(void)
{
    if (made)
        rmdir(made);
}

/* Makes a folder where it is missing; its name is on the disk then. */
static void make_folder(const char *path)
{
    if (mkdir(path, 0700) != 0) {
        if (errno != EEXIST)
            file_fault("make", path);
        return;
    }
    made = path;
    int above = open(text("%s/..", path), O_RDONLY | O_DIRECTORY | O_CLOEXEC);
    if (above < 0 || !sync_file(above))
        file_fault("store the name of", path);
    close(above);
}

void refuse_link(const struct folder *folder, const char *name)
{
    struct stat status;
    const char *path = path_in(folder->path, name);
    if (fstatat(folder->at, name, &status, AT_SYMLINK_NOFOLLOW) != 0 || !S_ISLNK(status.st_mode))
        return;
    about(path);
    refuse(TURNED_AWAY,
           "A command would replace the link, and the file that it names would stay the older one. "
           "Put "
           "the file itself into the folder; the folder may be a link. Nothing has changed.",
           "%s is a symbolic link", path);
}

struct folder lock_folder(const char *path, int make)
{
    static const char *const replaced[] = {"card",      "card.sum", "change", "message",
                                           "committed", "table",    "stands", "applying"};
    struct folder folder = {path, -1};
    if (make)
        make_folder(path);
    folder.at = open(path, O_RDONLY | O_DIRECTORY | O_CLOEXEC);
    if (folder.at < 0)
        file_fault("open the folder", path);
    if (flock(folder.at, LOCK_EX | LOCK_NB) != 0) {
        if (errno != EWOULDBLOCK)
            file_fault("lock the folder", path);
        about(path);
        refuse(TURNED_AWAY, "Wait until it has ended, and run this one again.",
               "another command is at work in %s", path);
    }
    for (size_t i = 0; i < sizeof replaced / sizeof *replaced; i++)
        refuse_link(&folder, replaced[i]);
    return folder;
}

char *path_in(const char *folder, const char *name)
{
    size_t length = strlen(folder);
    if (!strcmp(folder, "."))
        return text("%s", name);
    return text(length && folder[length - 1] == '/' ? "%s%s" : "%s/%s", folder, name);
}

int is_in(const struct folder *folder, const char *name)
{
    struct stat status;
    return fstatat(folder->at, name, &status, AT_SYMLINK_NOFOLLOW) == 0;
}
