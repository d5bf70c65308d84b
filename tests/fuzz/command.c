/*
 * The command on any bytes: in the place of one of the files that it reads, or of its words.
 *
 *   command FOLDER < INPUT
 *
 * FOLDER has the folder `state`, which tests/fuzz/seeds makes: owner and host of a small file. It
 * is copied to FOLDER/work, where the command runs. The input's first byte is a line of the table
 * below: which file the other bytes are, and the words of the command. A sanitizer's report is a
 * fault, and so is an exit status above 4, and a refused command that has changed a file.
 *
 * It is compiled with the command's own files, whose main is legbaro_main.
 */
#define _GNU_SOURCE 1
#include <dirent.h>
#include <fcntl.h>
#include <stdint.h>
#include <stdio.h>
#include <stdlib.h>
#include <string.h>
#include <sys/stat.h>
#include <unistd.h>
#include <zlib.h>

int legbaro_main(int count, char **given);

enum { MOST_INPUT = 1 << 16, MOST_WORDS = 24, LAST_STATUS = 4, REFUSED = 2 };

/* How the bytes become the file: as they are, or with a right CRC-32 in the last four. */
enum how { AS_IS, SUMMED };

/* Without a file the bytes are the words, each up to a line's end. The letter that tests/fuzz/seeds
 * knows a line by is its place in the table, from 'A' on. */
static const struct line {
    const char *file, *words;
    enum how how;
} lines[] = {
    {NULL, "", AS_IS},                                                /* A */
    {"owner/card", "-C owner show", AS_IS},                           /* B */
    {"owner/card", "-C owner draw --at 2026-11-23T10:30", AS_IS},     /* C */
    {"owner/card", "-C owner append --host host sample", AS_IS},      /* D */
    {"owner/card.sum", "-C owner draw --at 2026-11-23T10:30", AS_IS}, /* E */
    {"owner/key", "-C owner draw --at 2026-11-23T10:30", AS_IS},      /* F */
    {"owner/key.ids",
     "-C other set-up --key owner/key --id b --block-bytes 16 --rows 4 --positions 2 --tokens 2 "
     "host/blocks",
     AS_IS},                                                                      /* G */
    {"in", "-C host apply in", AS_IS},                                            /* H */
    {"in", "-C host apply in", SUMMED},                                           /* I */
    {"in", "-C other apply in", SUMMED},                                          /* J */
    {"in", "-C host apply --check in", SUMMED},                                   /* K */
    {"host/stands", "-C host show", AS_IS},                                       /* L */
    {"host/stands", "-C owner update --host host 3 sample", AS_IS},               /* M */
    {"host/stands", "-C host prove message", AS_IS},                              /* N */
    {"host/applying", "-C host show", SUMMED},                                    /* O */
    {"host/adding", "-C host show", AS_IS},                                       /* P */
    {"host/table", "-C owner append --host host sample", AS_IS},                  /* Q */
    {"host/blocks", "-C owner delete --host host 2", AS_IS},                      /* R */
    {"host/marks", "-C owner ask update --host host 2 sample", AS_IS},            /* S */
    {"in", "-C host prove in", AS_IS},                                            /* T */
    {"in", "-C drawn judge in", AS_IS},                                           /* U */
    {"in", "-C drawn cause --json in", AS_IS},                                    /* V */
    {"in", "-C drawn judge-pool in drawn second", AS_IS},                         /* W */
    {"in", "-C host pool in second/reply", AS_IS},                                /* X */
    {"in", "-C owner wait --plan in --at 2026-11-23T10:30", AS_IS},               /* Y */
    {"in", "-C owner draw --plan in --at 2026-11-23T10:30", AS_IS},               /* Z */
    {"in", "-C owner batch --host host in", AS_IS},                               /* [ */
    {"in", "-C host apply --committed in asked", SUMMED},                         /* \ */
    {"drawn/message", "-C drawn show", AS_IS},                                    /* ] */
    {"owner/change", "-C owner show --json", SUMMED},                             /* ^ */
    {"host/applying", "-C host prove message", SUMMED},                           /* _ */
    {"host/applying", "-C host apply asked", SUMMED},                             /* ` */
    {"host/adding", "-C host apply asked", AS_IS},                                /* a */
    {"in", "parity check --block-bytes 16 --data 3 --parity 2 in parity", AS_IS}, /* b */
    {"in", "parity rebuild --block-bytes 16 --data 3 --parity 2 --lost 2 --out out host/blocks in",
     AS_IS}, /* c */
};

enum { LINES = sizeof lines / sizeof *lines, FIRST_LETTER = 'A' };

/* ---- Files ---- */

static void must(int done, const char *what)
{
    if (done)
        return;
    perror(what);
    _exit(0);
}

static uint8_t room[MOST_INPUT];

static size_t read_in(int folder, const char *name)
{
    int file = openat(folder, name, O_RDONLY | O_CLOEXEC | O_NONBLOCK);
    must(file >= 0, name);
    ssize_t length = read(file, room, sizeof room);
    must(length >= 0, name);
    close(file);
    return (size_t)length;
}

static void write_in(int folder, const char *name, mode_t mode, const void *bytes, size_t length)
{
    int file = openat(folder, name, O_WRONLY | O_CREAT | O_TRUNC | O_CLOEXEC, mode);
    must(file >= 0 && write(file, bytes, length) == (ssize_t)length, name);
    close(file);
}

/* Opens a folder in another; below 0 where the name is none of a folder. */
static int folder_in(int above, const char *name)
{
    return openat(above, name, O_RDONLY | O_DIRECTORY | O_CLOEXEC);
}

/* Goes through the names in a folder; null after the last. */
static const char *next_name(DIR *folder)
{
    struct dirent *entry;
    do
        entry = readdir(folder);
    while (entry && (!strcmp(entry->d_name, ".") || !strcmp(entry->d_name, "..")));
    return entry ? entry->d_name : NULL;
}

static void remove_in(int above, const char *name)
{
    int folder = folder_in(above, name);
    if (folder < 0) {
        unlinkat(above, name, 0);
        return;
    }
    DIR *names = fdopendir(folder);
    for (const char *each = next_name(names); each; each = next_name(names))
        remove_in(folder, each);
    closedir(names);
    unlinkat(above, name, AT_REMOVEDIR);
}

static void copy_in(int from, const char *name, int to, const char *as)
{
    int folder = folder_in(from, name);
    struct stat status;
    if (folder < 0) {
        must(fstatat(from, name, &status, 0) == 0, name);
        size_t length = read_in(from, name);
        write_in(to, as, status.st_mode & 0777, room, length);
        return;
    }
    must(mkdirat(to, as, 0700) == 0, as);
    int below = folder_in(to, as);
    DIR *names = fdopendir(folder);
    for (const char *each = next_name(names); each; each = next_name(names))
        copy_in(folder, each, below, each);
    closedir(names);
    close(below);
}

/* A number for all names, modes and bytes in a folder, in whatever order the names come. */
static uint32_t sum_in(int above, const char *name, uint32_t path)
{
    int folder = folder_in(above, name);
    struct stat status;
    must(fstatat(above, name, &status, AT_SYMLINK_NOFOLLOW) == 0, name);
    path = (uint32_t)crc32(path, (const uint8_t *)name, (unsigned)strlen(name));
    path = (uint32_t)crc32(path, (const uint8_t *)&status.st_mode, sizeof status.st_mode);
    if (folder < 0) {
        size_t length = read_in(above, name);
        return (uint32_t)crc32(path, room, (unsigned)length);
    }
    DIR *names = fdopendir(folder);
    uint32_t sum = path;
    for (const char *each = next_name(names); each; each = next_name(names))
        sum += sum_in(folder, each, path);
    closedir(names);
    return sum;
}

/* ---- A run ---- */

static int place; /* FOLDER, opened */
static uint32_t before;
static const struct line *line;
static uint8_t input[MOST_INPUT + 1];

/* Looks at how the command ended, and at what a refused one has left. */
static void look(int status, void *nothing)
{
    (void)nothing;
    if (status > LAST_STATUS) {
        fprintf(stderr, "fuzz: exit status %d\n", status);
        abort();
    }
    if (status >= REFUSED && sum_in(place, "work", 0) != before) {
        fputs("fuzz: a refused command has changed a file\n", stderr);
        abort();
    }
}

/* Splits words at a character; answers how many there are. */
static int split(char *words, char at, char **given)
{
    int count = 0;
    given[count++] = words;
    for (; *words && count < MOST_WORDS; words++)
        if (*words == at) {
            *words = 0;
            given[count++] = words + 1;
        }
    given[count] = NULL;
    return count;
}

/* Whether a word may name a file outside the folder. */
static int leads_out(const char *word)
{
    return word[0] == '/' || strstr(word, "=/") || strstr(word, "..");
}

/* Puts the bytes where the command reads them. */
static void put_file(uint8_t *bytes, size_t length)
{
    if (line->how != AS_IS && length >= 4) {
        uint32_t sum = (uint32_t)crc32(0, bytes, (unsigned)length - 4);
        for (int i = 0; i < 4; i++)
            bytes[length - 4 + (size_t)i] = (uint8_t)(sum >> (24 - 8 * i));
    }
    int work = folder_in(place, "work");
    write_in(work, line->file, 0600, bytes, length);
    close(work);
}

int main(int count, char **given)
{
    static char name[] = "legbaro";
    char fixed[256] = "", *words[MOST_WORDS + 2] = {name};
    must(count == 2 && chdir(given[1]) == 0, "fuzz: FOLDER");
#ifdef __AFL_HAVE_MANUAL_CONTROL
    __AFL_INIT();
#endif
    ssize_t length = read(STDIN_FILENO, input, MOST_INPUT);
    if (length < 1 || input[0] < FIRST_LETTER || input[0] >= FIRST_LETTER + LINES)
        return 0;
    line = &lines[input[0] - FIRST_LETTER];
    place = open(".", O_RDONLY | O_DIRECTORY | O_CLOEXEC);
    remove_in(place, "work");
    copy_in(place, "state", place, "work");
    if (line->file) {
        put_file(input + 1, (size_t)length - 1);
        snprintf(fixed, sizeof fixed, "%s", line->words);
        count = split(fixed, ' ', words + 1);
    } else {
        count = split((char *)input + 1, '\n', words + 1);
        for (int i = 1; i <= count; i++)
            if (leads_out(words[i]))
                return 0;
    }
    must(chdir("work") == 0, "work");
    before = sum_in(place, "work", 0);
    on_exit(look, NULL);
    exit(legbaro_main(count + 1, words));
}
