/* A disk under test, linked around the example host with -Wl,--wrap: at one step of the host's file calls something goes
 * wrong. The steps are the calls of open, read, write, fsync, close and rename, counted from 1.
 *   STEP    in the environment: the step; without it nothing goes wrong
 *   FAULT   what happens at that step:
 *     error       it fails
 *     short       if it is a write, it takes half of the bytes
 *     cut         the power goes before it is done, or in the midst of it if it is a write
 *     cut-data    likewise, and what was written and not synced is lost
 *     cut-names   likewise, and renames after which the folder was not synced are lost
 *     cut-both    likewise, and both are lost
 *   RECORD, EARLIER   where given, the file RECORD was renamed over the content of the file EARLIER before the host was
 *           started, and the folder was not synced
 * A cut ends the program with 99, after printing how many files the host has begun to write. */
#define _POSIX_C_SOURCE 200809L
#include <errno.h>
#include <fcntl.h>
#include <stdio.h>
#include <stdlib.h>
#include <string.h>
#include <sys/stat.h>
#include <unistd.h>

int __real_open(const char *path, int flags, mode_t mode);
ssize_t __real_read(int file, void *bytes, size_t size);
ssize_t __real_write(int file, const void *bytes, size_t size);
int __real_close(int file);
int __real_rename(const char *from, const char *to);

static int files_begun;
static int unsynced = -1;     /* the file with data that is not synced */
static int renamed;           /* a rename is not synced */
static char renamed_to[4096]; /* and what stood there before: */
static char before[8192];
static ssize_t before_size; /* -1: no file */

static int is_fault(const char *name)
{
    const char *fault = getenv("FAULT");
    return fault != NULL && strncmp(fault, name, strlen(name)) == 0;
}

static void remember_renamed(const char *to, const char *content)
{
    int file = __real_open(content, O_RDONLY, 0);
    before_size = file < 0 ? -1 : __real_read(file, before, sizeof before);
    if (file >= 0)
        __real_close(file);
    strcpy(renamed_to, to);
    renamed = 1;
}

static int at_fault(void)
{
    static long steps;
    const char *step = getenv("STEP");
    if (steps == 0 && getenv("EARLIER") != NULL)
        remember_renamed(getenv("RECORD"), getenv("EARLIER"));
    return ++steps == (step != NULL ? atol(step) : 0);
}

static void cut(void)
{
    if ((is_fault("cut-data") || is_fault("cut-both")) && unsynced >= 0 && ftruncate(unsynced, 0) != 0)
        abort();
    if ((is_fault("cut-names") || is_fault("cut-both")) && renamed) {
        int file = -1;
        if (unlink(renamed_to) != 0)
            abort();
        if (before_size >= 0)
            file = __real_open(renamed_to, O_WRONLY | O_CREAT | O_EXCL, 0644);
        if (before_size >= 0 && __real_write(file, before, (size_t)before_size) != before_size)
            abort();
    }
    fprintf(stderr, "cut in file %d\n", files_begun);
    _exit(99);
}

/* Whether the step fails; it does not come back from a cut. */
static int fails(void)
{
    if (!at_fault())
        return 0;
    if (is_fault("cut"))
        cut();
    errno = EIO;
    return is_fault("error");
}

static void nothing_unsynced(void)
{
    if (unsynced >= 0)
        __real_close(unsynced);
    unsynced = -1;
}

int __wrap_open(const char *path, int flags, mode_t mode)
{
    if (flags & O_CREAT) {
        files_begun++;
        nothing_unsynced(); /* an earlier file's data has reached the disk by now */
    }
    return fails() ? -1 : __real_open(path, flags, mode);
}

ssize_t __wrap_read(int file, void *bytes, size_t size)
{
    return fails() ? -1 : __real_read(file, bytes, size);
}

ssize_t __wrap_write(int file, const void *bytes, size_t size)
{
    int fault = at_fault();
    if (unsynced < 0)
        unsynced = dup(file);
    if (fault && is_fault("error")) {
        errno = ENOSPC;
        return -1;
    }
    ssize_t written = __real_write(file, bytes, fault ? size / 2 : size);
    if (fault && is_fault("cut"))
        cut();
    return written;
}

/* Nothing is synced in fact: the disk is the one above. */
int __wrap_fsync(int file)
{
    struct stat status;
    if (fails() || fstat(file, &status) != 0)
        return -1;
    if (S_ISDIR(status.st_mode))
        renamed = 0;
    else
        nothing_unsynced();
    return 0;
}

int __wrap_close(int file)
{
    return fails() ? -1 : __real_close(file);
}

int __wrap_rename(const char *from, const char *to)
{
    if (fails())
        return -1;
    if (!renamed)
        remember_renamed(to, to);
    return __real_rename(from, to);
}
