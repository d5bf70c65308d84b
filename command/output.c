/* See output.h. */
#define _GNU_SOURCE
#include "output.h"
#include "report.h"

#include <ctype.h>
#include <errno.h>
#include <fcntl.h>
#include <stdio.h>
#include <stdlib.h>
#include <string.h>
#include <sys/mman.h>
#include <unistd.h>

/* What the owner or the host keeps, or prepares to. */
static const char *const kept[] = {"key",     "key.ids",   "card",     "card.sum", "change",
                                   "message", "committed", "blocks",   "marks",    "table",
                                   "stands",  "adding",    "applying", "plan",     "journal"};
enum { KEPT = sizeof kept / sizeof *kept };

/* ---- What is never written over ---- */

/* Whether a name is one of those, or one that was moved aside or prepared: NAME.1, NAME.new. */
static int is_kept_name(const char *name)
{
    for (int i = 0; i < KEPT; i++) {
        size_t length = strlen(kept[i]);
        if (strncmp(name, kept[i], length))
            continue;
        const char *rest = name + length;
        if (!*rest || !strcmp(rest, ".new") || (*rest == '.' && isdigit((unsigned char)rest[1])))
            return 1;
    }
    return 0;
}

static int is_there(const char *folder, const char *name)
{
    return access(path_in(folder, name), F_OK) == 0;
}

static int same_file(const struct stat *a, const struct stat *b)
{
    return a->st_dev == b->st_dev && a->st_ino == b->st_ino;
}

static void refuse_kept(const char *path, const char *what)
{
    about(path);
    refuse(TURNED_AWAY, "Name another file for the output. Nothing has changed.",
           "%s is not written over: it is %s", path, what);
}

/* Refuses a file that a folder keeps. */
static void refuse_kept_in(const struct output *out, const char *folder, const struct stat *status)
{
    struct stat other;
    for (int i = 0; i < KEPT; i++) {
        const char *path = path_in(folder, kept[i]);
        if (stat(path, &other) == 0 && same_file(&other, status))
            refuse_kept(out->path, !strcmp(path, out->path) ? "kept there by the owner or the host"
                                                            : text("the file %s", path));
    }
}

static const char *folder_of(const char *path)
{
    const char *slash = strrchr(path, '/');
    return slash ? text("%.*s", slash == path ? 1 : (int)(slash - path), path) : ".";
}

static const char *name_of(const char *path)
{
    const char *slash = strrchr(path, '/');
    return slash ? slash + 1 : path;
}

/* ---- Checking ---- */

/* Whether a regular file is of the kind that the command makes. An empty one holds nothing to lose.
 */
static int is_replaced(const struct output *out, const struct stat *status)
{
    size_t length = (size_t)status->st_size;
    if (!length || out->force)
        return 1;
    int file = out->is_kind ? open(out->target, O_RDONLY | O_NONBLOCK | O_CLOEXEC) : -1;
    void *at = file >= 0 ? mmap(NULL, length, PROT_READ, MAP_PRIVATE, file, 0) : MAP_FAILED;
    struct bytes bytes = {at, length};
    int is = at != MAP_FAILED && out->is_kind(bytes);
    if (at != MAP_FAILED)
        munmap(at, length);
    if (file >= 0)
        close(file);
    return is;
}

static void check_regular(const struct output *out, const struct stat *status)
{
    if (was_read(status))
        refuse_kept(out->path, "a file that this command reads");
    refuse_kept_in(out, out->folder, status);
    refuse_kept_in(out, folder_of(out->target), status);
    if (is_replaced(out, status))
        return;
    about(out->path);
    refuse(TURNED_AWAY, "Name another file, or add --force to replace it. Nothing has changed.",
           "there is a file %s, %s", out->path,
           out->is_kind ? "which is not one that this command makes"
                        : "which is replaced with --force alone");
}

/* A name that the owner or the host keeps is refused in their folders, whether the file is there or
 * not; and so is a NAME.new that someone else made. */
static void check_name(const struct output *out)
{
    const char *folder = folder_of(out->target), *name = name_of(out->target);
    if (is_kept_name(name) &&
        (is_there(folder, "key") || is_there(folder, "card") || is_there(folder, "stands")))
        refuse_kept(out->path, "a name that the owner or the host keeps files under");
    if (!out->named || out->force || !is_there(folder, text("%s.new", name)))
        return;
    about(out->path);
    refuse(TURNED_AWAY,
           "Another command is writing it, or has stopped: remove it, or add --force. Nothing has "
           "changed.",
           "%s.new is in the way", out->path);
}

static void refuse_output(const char *path, const char *what, const char *next)
{
    about(path);
    refuse(TURNED_AWAY, next, "%s %s", path, what);
}

/* Follows a link to its target. */
static void find_target(struct output *out)
{
    struct stat status;
    size_t length = strlen(out->path);
    out->target = out->path;
    if (lstat(out->path, &status) == 0 && S_ISLNK(status.st_mode)) {
        char *target = realpath(out->path, NULL);
        if (!target)
            refuse_output(out->path, "is a symbolic link to nothing",
                          "Remove it, or name another file. Nothing has changed.");
        out->target = text("%s", target);
        free(target);
    }
    if (length && out->path[length - 1] == '/')
        refuse_output(out->path, "names a folder", "Name a file in it. Nothing has changed.");
}

static void check(struct output *out)
{
    static const char *const another = "Name a file. Nothing has changed.";
    struct stat status;
    if (out->standard >= 0 || !out->target)
        return;
    find_target(out);
    if (stat(out->path, &status) != 0) {
        if (errno != ENOENT)
            file_fault("write", out->path);
        if (access(folder_of(out->target), F_OK) != 0)
            file_fault("open the folder", folder_of(out->target));
        check_name(out);
        return;
    }
    if (S_ISDIR(status.st_mode))
        refuse_output(out->path, "is a folder", "Name a file in it. Nothing has changed.");
    if (S_ISBLK(status.st_mode) || S_ISSOCK(status.st_mode))
        refuse_output(out->path, "is a disk or a socket", another);
    if (S_ISREG(status.st_mode)) {
        check_regular(out, &status);
        check_name(out);
    } else {
        out->target = NULL;
    }
}

/* What the command says goes to standard error, so that the output alone is on standard output. */
static int take_standard_output(void)
{
    int out = dup(STDOUT_FILENO);
    if (out < 0 || dup2(STDERR_FILENO, STDOUT_FILENO) < 0)
        file_fault("write", "standard output");
    return out;
}

/* Whether a path names standard output itself, by whatever it is connected with. */
static int is_standard_output(const char *path)
{
    return !strcmp(path, "-") || !strcmp(path, "/dev/stdout") || !strcmp(path, "/dev/fd/1") ||
           !strcmp(path, "/proc/self/fd/1");
}

struct output check_output(const struct options *o, const char *told, const char *name,
                           int (*is_kind)(struct bytes))
{
    struct output out = {.path = told ? told : path_in(o->folder, name), .folder = o->folder};
    out.target = out.path;
    out.is_kind = is_kind;
    out.force = (int)o->force;
    out.named = told != NULL;
    out.standard = told && is_standard_output(told) ? take_standard_output() : -1;
    check(&out);
    return out;
}

/* ---- Writing ---- */

static void write_directly(const struct output *out, const struct piece *pieces, int count)
{
    int file = out->standard >= 0 ? out->standard : open(out->path, O_WRONLY | O_CLOEXEC);
    int whole = file >= 0;
    for (int i = 0; i < count && whole; i++)
        whole = write_out(file, pieces[i].at, pieces[i].length);
    if (!whole || close(file) != 0)
        file_fault("write", out->standard >= 0 ? "standard output" : out->path);
}

void write_output(const struct output *output, const struct piece *pieces, int count)
{
    struct output out = *output;
    check(&out);
    if (!out.target || out.standard >= 0) {
        write_directly(&out, pieces, count);
        return;
    }
    struct folder folder = {folder_of(out.target), -1};
    folder.at = open(folder.path, O_RDONLY | O_DIRECTORY | O_CLOEXEC);
    if (folder.at < 0)
        file_fault("open the folder", folder.path);
    store(&folder, name_of(out.target), 0666, pieces, count);
    close(folder.at);
}
