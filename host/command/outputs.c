/* What comes out: standard output, or a file that is written whole or not at all. */
#define _XOPEN_SOURCE 700
#include "command.h"

#include <errno.h>
#include <fcntl.h>
#include <signal.h>
#include <stdio.h>
#include <stdlib.h>
#include <string.h>
#include <sys/stat.h>
#include <unistd.h>

void cannot(const char *name, const char *done, const char *hint)
{
    fprintf(stderr, "shim: %s: cannot be %s: %s%s\n", name[0] == '\0' ? "''" : name, done, strerror(errno), hint);
    exit(TROUBLE);
}

/* Also by a name such as /dev/stdout: what stands in the file already must stay there, and the numbers come behind. */
int is_standard_output(const char *path)
{
    struct stat there, own;
    return path == NULL || strcmp(path, "-") == 0 ||
           (stat(path, &there) == 0 && fstat(STDOUT_FILENO, &own) == 0 && there.st_dev == own.st_dev &&
            there.st_ino == own.st_ino);
}

int is_terminal(const char *path)
{
    struct stat there;
    if (is_standard_output(path))
        return isatty(STDOUT_FILENO);
    if (stat(path, &there) != 0 || !S_ISCHR(there.st_mode))
        return 0;
    int device = open(path, O_WRONLY | O_NOCTTY | O_NONBLOCK);
    int terminal = device >= 0 && isatty(device);
    if (device >= 0)
        close(device);
    return terminal;
}

static void write_standard_output(const void *at, size_t length)
{
    if (fwrite(at, 1, length, stdout) != length)
        cannot("standard output", "written", "");
}

void flush_standard_output(void)
{
    if (ferror(stdout) || fflush(stdout) != 0)
        cannot("standard output", "written", "");
}

/* A device or a pipe cannot be replaced. */
static int is_special(const char *path)
{
    struct stat there;
    return stat(path, &there) == 0 && !S_ISREG(there.st_mode) && !S_ISDIR(there.st_mode);
}

static void write_special(const char *path, const void *at, size_t length)
{
    FILE *file = fopen(path, "wb");
    if (file == NULL)
        cannot(path, "written", "");
    if (fwrite(at, 1, length, file) != length || fflush(file) != 0)
        cannot(path, "written", "");
    if (fclose(file) != 0)
        cannot(path, "written", "");
}

/*
 * The file that is to be replaced: where the name is a symbolic link, the file that it leads to. A folder, or a file
 * that is protected, must not give way to another.
 */
static char *meant_file(const char *path)
{
    struct stat there;
    char *meant = lstat(path, &there) == 0 && S_ISLNK(there.st_mode) ? realpath(path, NULL) : strdup(path);
    if (meant == NULL || (stat(meant, &there) == 0 && access(meant, W_OK) != 0))
        cannot(path, "written", "");
    errno = EISDIR;
    if (stat(meant, &there) == 0 && S_ISDIR(there.st_mode))
        cannot(path, "written", "");
    return meant;
}

/* The permissions of the file that is replaced, whose owner may become another, or those that a new one gets. */
static mode_t mode_for(const char *path)
{
    struct stat there;
    if (stat(path, &there) == 0)
        return there.st_mode & 0777;
    mode_t mask = umask(0);
    umask(mask);
    return 0666 & ~mask;
}

/* Are the bytes on the disk, under this file's name? */
static int is_filled(int file, mode_t mode, const void *at, size_t length)
{
    int filled = fchmod(file, mode) == 0;
    for (size_t done = 0; filled && done < length;) {
        ssize_t count = write(file, (const char *)at + done, length - done);
        filled = count > 0;
        done += filled ? (size_t)count : 0;
    }
    filled = filled && fsync(file) == 0;
    int why = errno;
    int closed = close(file) == 0;
    errno = filled ? errno : why;
    return filled && closed;
}

/* A name for a file in the same folder. */
static char *name_beside(const char *path)
{
    static const char name[] = ".shim-XXXXXX";
    const char *slash = strrchr(path, '/');
    size_t folder = slash == NULL ? 0 : (size_t)(slash - path) + 1;
    char *beside = malloc(folder + sizeof name);
    if (beside == NULL)
        cannot(path, "written", "");
    memcpy(beside, path, folder);
    memcpy(beside + folder, name, sizeof name);
    return beside;
}

/* A file beside the old one takes its place when it is whole. No signal that can be held back comes between. */
static void replace(const char *path, const void *at, size_t length)
{
    char *meant = meant_file(path), *beside = name_beside(meant);
    mode_t mode = mode_for(meant);
    sigset_t all, former;
    sigfillset(&all);
    sigprocmask(SIG_BLOCK, &all, &former);
    int file = mkstemp(beside);
    if (file < 0)
        cannot(path, "written", "");
    if (!is_filled(file, mode, at, length) || rename(beside, meant) != 0) {
        int why = errno;
        unlink(beside);
        errno = why;
        cannot(path, "written", "");
    }
    sigprocmask(SIG_SETMASK, &former, NULL);
    free(beside);
    free(meant);
}

void write_output(const char *path, const void *at, size_t length)
{
    if (is_standard_output(path))
        write_standard_output(at, length);
    else if (is_special(path))
        write_special(path, at, length);
    else
        replace(path, at, length);
}
