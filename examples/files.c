/* See files.h. */
#define _XOPEN_SOURCE 700
#include "files.h"

#include <fcntl.h>
#include <stdio.h>
#include <stdlib.h>
#include <sys/stat.h>
#include <unistd.h>

void stop(const char *what, const char *name)
{
    fprintf(stderr, "week: can't %s %s\n", what, name);
    exit(1);
}

struct bytes room(size_t length)
{
    struct bytes b = {calloc(length ? length : 1, 1), length};
    if (!b.at)
        stop("find memory for", "a buffer");
    return b;
}

int is_there(const char *name)
{
    return access(name, F_OK) == 0;
}

size_t size_of(const char *name)
{
    struct stat about;
    if (stat(name, &about) != 0)
        stop("look at", name);
    return (size_t)about.st_size;
}

/* Opens a file at an offset, for reading and writing. */
static FILE *opened(const char *name, size_t offset)
{
    FILE *file = fopen(name, "rb+");
    if (!file || fseek(file, (long)offset, SEEK_SET) != 0)
        stop("open", name);
    return file;
}

void read_part(const char *name, size_t offset, struct bytes part)
{
    FILE *file = opened(name, offset);
    if (fread(part.at, 1, part.length, file) != part.length || fclose(file) != 0)
        stop("read", name);
}

void write_part(const char *name, size_t offset, struct bytes part)
{
    FILE *file = opened(name, offset);
    if (fwrite(part.at, 1, part.length, file) != part.length || fclose(file) != 0)
        stop("write", name);
}

struct bytes read_file(const char *name)
{
    struct bytes b = room(size_of(name));
    read_part(name, 0, b);
    return b;
}

/* Writes bytes to a file that is opened in a mode. */
static void write_in_mode(const char *name, const char *mode, const void *bytes, size_t length)
{
    FILE *file = fopen(name, mode);
    if (!file || fwrite(bytes, 1, length, file) != length || fclose(file) != 0)
        stop("write", name);
}

void write_file(const char *name, const void *bytes, size_t length)
{
    write_in_mode(name, "wb", bytes, length);
}

void add_to_file(const char *name, const void *bytes, size_t length)
{
    write_in_mode(name, "ab", bytes, length);
}

/* Waits until what was written to a file, or the names in a folder, are on the disk. */
static void flush(const char *name)
{
    int opened = open(name, O_RDONLY);
    if (opened < 0 || fsync(opened) != 0 || close(opened) != 0)
        stop("store", name);
}

/* The bytes are on the disk before the file takes the other's name, and the name is before anything
 * else is done. */
void store_file(const char *folder, const char *name, const void *bytes, size_t length)
{
    char path[64], beside[64];
    snprintf(path, sizeof path, "%s/%s", folder, name);
    snprintf(beside, sizeof beside, "%s/%s-new", folder, name);
    write_file(beside, bytes, length);
    flush(beside);
    if (rename(beside, path) != 0)
        stop("write", path);
    flush(folder);
}

void resize_file(const char *name, size_t length)
{
    if (truncate(name, (off_t)length) != 0)
        stop("write", name);
}

void copy_file(const char *from, const char *to)
{
    struct bytes b = read_file(from);
    write_file(to, ARG(b));
    free(b.at);
}

void wipe(const char *name)
{
    struct bytes zeros = room(size_of(name));
    write_file(name, ARG(zeros));
    free(zeros.at);
    if (remove(name) != 0)
        stop("remove", name);
}

void make_folders(const char *name)
{
    if (mkdir(name, 0700) != 0 || chdir(name) != 0 || mkdir("owner", 0700) != 0 ||
        mkdir("host", 0700) != 0)
        stop("make", name);
}

void leave_folders(void)
{
    if (chdir("..") != 0)
        stop("go to", "..");
}

void enter_folders(const char *name)
{
    if (chdir(name) != 0)
        stop("go to", name);
}

void remove_folders(const char *name)
{
    static const char *const names[] = {
        "owner/master",      "owner/card",   "owner/table",        "owner/plan",
        "owner/totals",      "owner",        "host/blocks",        "host/table",
        "host/table-before", "host/message", "host/reply",         "host/reply-whole",
        "host/marks",        "host/totals",  "host/blocks-before", "host"};
    for (size_t i = 0; i < sizeof names / sizeof *names; i++)
        remove(names[i]);
    leave_folders();
    if (rmdir(name) != 0)
        stop("remove", name);
}

void go_to(const char *folder)
{
    if (chdir(folder) != 0)
        stop("go to", folder);
}
