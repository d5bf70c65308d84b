/* Bytes in memory and in files. A step that can't be done ends the program with status 1. */
#ifndef FILES_H
#define FILES_H

#include <stddef.h>
#include <stdint.h>

struct bytes {
    uint8_t *at; /* to be freed by who asked for them */
    size_t length;
};

/* A buffer as the library's calls take it. */
#define ARG(b) (b).at, (b).length

/* Says what can't be done with which file, and ends the program. */
void stop(const char *what, const char *name);

/* Room for so many bytes. */
struct bytes room(size_t length);

/* Whether there is a file of that name. */
int is_there(const char *name);

/* All bytes of a file, and their number; makes a file of these bytes; puts bytes behind a file's
 * last. */
struct bytes read_file(const char *name);
size_t size_of(const char *name);
void write_file(const char *name, const void *bytes, size_t length);
void add_to_file(const char *name, const void *bytes, size_t length);

/* Puts a file of these bytes in the place of the one of that name in a folder. A crash leaves the
 * one or the other whole, and once this is done the new one. */
void store_file(const char *folder, const char *name, const void *bytes, size_t length);

/* Bytes of a file from an offset on: read, and put in the place of others. */
void read_part(const char *name, size_t offset, struct bytes part);
void write_part(const char *name, size_t offset, struct bytes part);

/* Makes a file so long: bytes at the end are lost, or zero bytes come behind. */
void resize_file(const char *name, size_t length);

void copy_file(const char *from, const char *to);

/* Overwrites a file with zero bytes and removes it. */
void wipe(const char *name);

/* Makes a folder with the folders `owner` and `host` in it, and goes there; goes back, and removes
 * it with what the parties made. Between these, goes back and leaves it as it is; goes there
 * again. */
void make_folders(const char *name);
void remove_folders(const char *name);
void leave_folders(void);
void enter_folders(const char *name);

/* Goes to a folder. */
void go_to(const char *folder);

#endif
