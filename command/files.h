/* Bytes in memory and in files. What can't be done with a file ends the program with status
 * BAD_FILE: report.h. */
#ifndef FILES_H
#define FILES_H

#include <stddef.h>
#include <stdint.h>
#include <sys/stat.h>
#include <sys/types.h>

struct bytes {
    uint8_t *at; /* never null */
    size_t length;
};

/* A buffer as the library's calls take it. */
#define LENT(b) (b).at, (b).length

/* Zero bytes, freed when the program ends; and such as a child process shares: progress.h. */
struct bytes room(size_t length);
struct bytes shared_room(size_t length);

/* A text as printf writes it, freed when the program ends. */
char *text(const char *format, ...) __attribute__((format(printf, 1, 2)));

/* A number of so many bytes, big-endian: read, and written. */
uint64_t number_at(const uint8_t *at, unsigned width);
void put_number(uint8_t *at, unsigned width, uint64_t number);

/* ---- Reading ---- */

/* The bytes of a regular file, mapped, to be read only. Anything else, a pipe too, is refused at
 * once. map_whole refuses a file of another length with what to do next. */
struct bytes map_file(const char *path);
struct bytes map_whole(const char *path, uint64_t length, const char *what, const char *next);

/* Gives back what map_file or shared_room gave out, before the program ends. */
void unmap(struct bytes mapped);

/* Reads the bytes of a regular file from an offset on into `bytes`, and writes the file's length.
 * Returns 0 where the file is shorter than that. */
int read_part(const char *path, uint64_t offset, struct bytes bytes, uint64_t *length);

/* The most bytes of a text that is read whole: a plan, or the list of a batch. */
enum { MOST_TEXT_BYTES = 1 << 20 };

/* The bytes of something small: of a regular file, of a pipe, or for "-" of standard input, a copy.
 * What has more than `most` bytes is refused; `what` says what it is to be, as "a plan".
 * small_whole refuses another length, in the words of map_whole. */
struct bytes read_small(const char *path, size_t most, const char *what);
struct bytes small_whole(const char *path, uint64_t length, const char *what, const char *next);

/* A path for words: "-" is standard input. */
const char *input_words(const char *path);

/* Whether a file is one that this run has read, by device and inode. */
int was_read(const struct stat *status);

/* A copy of a mapped file's bytes, to be written, which a child process may share. */
struct bytes copy_of(struct bytes mapped);

/* ---- Folders ---- */

/* A folder: its path for words, and itself opened. */
struct folder {
    const char *path;
    int at;
};

/* Opens a folder and locks it until the program ends. Refused where another command is at work
 * there, and where a file that commands replace is a symbolic link. With `make` a missing folder is
 * made. */
struct folder lock_folder(const char *path, int make);

/* Removes the folder that lock_folder has made in this run, where it is empty. */
void undo_folder(void);

/* Ends the program where a file of the folder is a symbolic link, which a rename would replace. */
void refuse_link(const struct folder *folder, const char *name);

/* The path of a file in a folder; whether there is one. */
char *path_in(const char *folder, const char *name);
int is_in(const struct folder *folder, const char *name);

/* ---- Durable writing: beside its place, synced, renamed, and the folder synced ---- */

/* Bytes that are written one piece after the other. */
struct piece {
    const void *at;
    size_t length;
};

/* Writes NAME.new and waits until it is on the disk. A mode of 0600 is set whatever the umask is,
 * any other is the umask's to narrow. A fault removes it, and what was prepared before unless
 * something was placed since. */
void prepare(const struct folder *folder, const char *name, mode_t mode, const struct piece *pieces,
             int count);

/* The same, but a fault only removes NAME.new. Returns whether it is written; errno says why
 * not. */
int try_prepare(const struct folder *folder, const char *name, mode_t mode,
                const struct piece *pieces, int count);

/* NAME.new takes the place of NAME; a file is removed. Both are on the disk then. */
void place(const struct folder *folder, const char *name);
void take_away(const struct folder *folder, const char *name);

/* Prepare and place. */
void store(const struct folder *folder, const char *name, mode_t mode, const struct piece *pieces,
           int count);

/* Renames NAME to NAME.1, or the next number that is free, and says so. For what may be an only
 * copy. */
void move_aside(const struct folder *folder, const char *name);

/* Writes bytes into an opened file from an offset on; waits until a file is on the disk; makes it
 * so long. Each returns whether it could; errno says why not. */
int write_at(int file, uint64_t offset, const void *bytes, size_t length);
int sync_file(int file);
int resize_file(int file, uint64_t length);

/* Writes bytes to a pipe or a device. Returns whether it could. */
int write_out(int file, const void *bytes, size_t length);

#endif
