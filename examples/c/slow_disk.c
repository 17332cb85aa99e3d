/*
 * A disk for the tests, linked in place of the system's calls (`disk` in build).
 *
 * What a kill leaves of a file is otherwise all that was written, synced or not, since the system keeps it. On this disk
 * nothing reaches a file before its own fsync, which then writes it in a few pieces and takes its time: a kill loses what was
 * not synced, and cuts what is just being synced. A write takes up to 1,000 bytes, and every third is interrupted. What is no
 * file (reports, notes, the radio) is written at once. Of a folder's fsync it says on standard error which folder that is:
 * `synced folder INODE`.
 *
 * It also says `too early` on standard error where a program tells or sends something, shortens a file, or begins one, while
 * bytes that it wrote, a new file's name or a changed one are not yet synced.
 *
 * DISK_ENDS_AT: the power fails at that step of the disk, counted from 1. Steps are pieces written, files shortened or renamed,
 * and folders synced. DISK_BAD_AT: the byte at that place of every file cannot be read.
 */
#define _GNU_SOURCE

#include <errno.h>
#include <signal.h>
#include <stdint.h>
#include <stdio.h>
#include <stdlib.h>
#include <string.h>
#include <sys/stat.h>
#include <sys/types.h>
#include <time.h>
#include <unistd.h>

#define LONGEST_WRITE 1000
#define PIECES 8
#define FILES 4

/* What was written to each file since its last fsync. */
static struct {
    dev_t device;
    ino_t inode;
    size_t length;
    uint8_t bytes[1 << 18];
} held[FILES];
static size_t files;

/* Whether a folder has a name that is not synced. */
static int name_open;

ssize_t __real_write(int to, const void *bytes, size_t length);
ssize_t __wrap_write(int to, const void *bytes, size_t length);
int __wrap_fsync(int file);
ssize_t __real_pread(int file, void *bytes, size_t length, off_t place);
ssize_t __wrap_pread(int file, void *bytes, size_t length, off_t place);
ssize_t __wrap_pread64(int file, void *bytes, size_t length, off_t place);
int __real_ftruncate(int file, off_t length);
int __wrap_ftruncate(int file, off_t length);
int __wrap_ftruncate64(int file, off_t length);
int __real_rename(const char *from, const char *to);
int __wrap_rename(const char *from, const char *to);

static void say(const char *line)
{
    if (__real_write(STDERR_FILENO, line, strlen(line)) < 0 && errno != EPIPE)
        abort();
}

static void step(void)
{
    static long steps;
    const char *last = getenv("DISK_ENDS_AT");
    if (last != NULL && ++steps == atol(last))
        raise(SIGKILL);
}

/* The place of a file in what is held, made if it is new. */
static size_t place_of(const struct stat *is)
{
    size_t place;
    for (place = 0; place < files; place++)
        if (held[place].device == is->st_dev && held[place].inode == is->st_ino)
            return place;
    if (files == FILES)
        abort();
    held[place].device = is->st_dev;
    held[place].inode = is->st_ino;
    files++;
    return place;
}

static void check_all_synced(void)
{
    size_t place;
    int open = name_open;
    for (place = 0; place < files; place++)
        open |= held[place].length > 0;
    if (open)
        say("too early\n");
}

/* Of the notes, those that say what a start did to the file. */
static int tells(int to, const char *line, size_t length)
{
    return to != STDERR_FILENO || (length > 8 && (memcmp(line, "dropped ", 8) == 0 || memcmp(line, "put asid", 8) == 0));
}

static ssize_t hold(const struct stat *is, const void *bytes, size_t length)
{
    size_t place = place_of(is);
    if (length > LONGEST_WRITE)
        length = LONGEST_WRITE;
    if (length > sizeof held[place].bytes - held[place].length) {
        errno = ENOSPC;
        return -1;
    }
    if (is->st_size == 0 && held[place].length == 0) {
        check_all_synced();
        name_open = 1;
    }
    memcpy(held[place].bytes + held[place].length, bytes, length);
    held[place].length += length;
    return (ssize_t)length;
}

ssize_t __wrap_write(int to, const void *bytes, size_t length)
{
    static unsigned writes;
    struct stat is;
    if (fstat(to, &is) != 0)
        return -1;
    if (!S_ISREG(is.st_mode)) {
        if (tells(to, bytes, length))
            check_all_synced();
        return __real_write(to, bytes, length);
    }
    if (++writes % 3 == 0) {
        errno = EINTR;
        return -1;
    }
    return hold(&is, bytes, length);
}

static int sync_folder(ino_t inode)
{
    char line[64];
    step();
    snprintf(line, sizeof line, "synced folder %ju\n", (uintmax_t)inode);
    say(line);
    name_open = 0;
    return 0;
}

int __wrap_fsync(int file)
{
    const struct timespec pause = {0, 20000};
    size_t at, piece, place = 0;
    struct stat is;
    if (fstat(file, &is) != 0)
        return -1;
    if (S_ISDIR(is.st_mode))
        return sync_folder(is.st_ino);
    at = place_of(&is);
    piece = held[at].length / PIECES + 1;
    while (place < held[at].length) {
        size_t rest = held[at].length - place;
        ssize_t written;
        step();
        written = __real_write(file, held[at].bytes + place, rest < piece ? rest : piece);
        if (written < 0)
            return -1;
        place += (size_t)written;
        nanosleep(&pause, NULL);
    }
    held[at].length = 0;
    return 0;
}

ssize_t __wrap_pread(int file, void *bytes, size_t length, off_t place)
{
    const char *bad = getenv("DISK_BAD_AT");
    if (bad != NULL && place <= atol(bad) && place + (off_t)length > atol(bad)) {
        errno = EIO;
        return -1;
    }
    return __real_pread(file, bytes, length, place);
}

int __wrap_ftruncate(int file, off_t length)
{
    check_all_synced();
    step();
    return __real_ftruncate(file, length);
}

/* The names that Rust calls them by. */
ssize_t __wrap_pread64(int file, void *bytes, size_t length, off_t place)
{
    return __wrap_pread(file, bytes, length, place);
}

int __wrap_ftruncate64(int file, off_t length)
{
    return __wrap_ftruncate(file, length);
}

int __wrap_rename(const char *from, const char *to)
{
    check_all_synced();
    step();
    name_open = 1;
    return __real_rename(from, to);
}
