/* See ids.h. */
#define _GNU_SOURCE
#include "ids.h"
#include "report.h"

#include "legbaro.h"

#include <errno.h>
#include <fcntl.h>
#include <stdio.h>
#include <string.h>
#include <sys/file.h>
#include <unistd.h>

enum { LINE_BYTES = 2 * LEGBARO_ID_BYTES + 1 };

static char *path_of(const char *key)
{
    return text("%s.ids", key);
}

static const char *line_of(const uint8_t *id)
{
    char *line = (char *)room(LINE_BYTES + 1).at;
    for (int i = 0; i < LEGBARO_ID_BYTES; i++)
        snprintf(line + 2 * i, 3, "%02x", id[i]);
    line[LINE_BYTES - 1] = '\n';
    return line;
}

/* Whether a line of the list is the one looked for. */
static int has_line(struct bytes list, const char *line)
{
    const char *at = (const char *)list.at, *end = at + list.length;
    while (end - at >= LINE_BYTES) {
        if (!memcmp(at, line, LINE_BYTES))
            return 1;
        const char *next = memchr(at, '\n', (size_t)(end - at));
        if (!next)
            return 0;
        at = next + 1;
    }
    return 0;
}

int id_is_listed(const char *key, const uint8_t *id)
{
    const char *path = path_of(key);
    return access(path, F_OK) == 0 && has_line(map_file(path), line_of(id));
}

void lock_ids(const char *key)
{
    /* The key itself is locked: it is never replaced. */
    int file = open(key, O_RDONLY | O_CLOEXEC);
    if (file < 0 || flock(file, LOCK_EX) != 0)
        file_fault("lock", key);
}

/* Stores the list in the key's folder. */
static void store_list(const char *path, const struct piece *pieces, int count)
{
    const char *slash = strrchr(path, '/');
    struct folder folder = {
        slash ? text("%.*s", slash == path ? 1 : (int)(slash - path), path) : ".", -1};
    folder.at = open(folder.path, O_RDONLY | O_DIRECTORY | O_CLOEXEC);
    if (folder.at < 0)
        file_fault("open the folder", folder.path);
    store(&folder, slash ? slash + 1 : path, 0600, pieces, count);
    close(folder.at);
}

void list_id(const char *key, const uint8_t *id)
{
    const char *path = path_of(key), *line = line_of(id);
    struct bytes list = access(path, F_OK) == 0 ? map_file(path) : room(0);
    const struct piece pieces[] = {{list.at, list.length}, {line, LINE_BYTES}};
    if (!has_line(list, line))
        store_list(path, pieces, 2);
}
