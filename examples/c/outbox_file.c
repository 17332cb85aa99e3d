/*
 * The outbox file: it is written one record at a time, through a small outbox in memory that has the version byte and room for
 * one record of the longest message, and read at a start as many records at a time as that holds.
 */
#define _XOPEN_SOURCE 700

#include "outbox_file.h"

#include <errno.h>
#include <fcntl.h>
#include <inttypes.h>
#include <libgen.h>
#include <limits.h>
#include <poll.h>
#include <signal.h>
#include <stdarg.h>
#include <stdio.h>
#include <stdlib.h>
#include <string.h>
#include <sys/stat.h>
#include <sys/types.h>
#include <termios.h>
#include <time.h>
#include <unistd.h>

/* A file's name, of 255 bytes at most, and what is said of it. */
#define LONGEST_LINE 400

/* The notes of a kind and number since the last record or other line, and how many there were after the first. */
#define KINDS 8
static struct {
    const char *kind;
    uint64_t number;
    uint64_t more;
} counted[KINDS];
static size_t kinds;

static int with_times;

/* The outbox of one record, lent by the box. Its first byte is the file's, from the start on. */
static uint8_t *outbox;
static size_t outbox_size;

static int file;
static off_t file_end;
/* The file's own path: with a symbolic link as the path that was given, what the link leads to. */
static char own_path[PATH_MAX];

/* ---- What is said ---- */

/*
 * Answers whether the line went out. An output that would have to be waited for gets none: a reader that has stopped reading
 * must not stop the box.
 */
static int write_line(int to, const char *line)
{
    size_t rest = strlen(line);
    while (rest > 0) {
        struct pollfd output = {0};
        ssize_t written;
        output.fd = to;
        output.events = POLLOUT;
        errno = EAGAIN;
        if (poll(&output, 1, 0) != 1)
            return 0;
        written = write(to, line, rest);
        if (written < 0 && errno != EINTR)
            return 0;
        if (written > 0) {
            line += written;
            rest -= (size_t)written;
        }
    }
    return 1;
}

static void tell_counted(void)
{
    char line[LONGEST_LINE];
    size_t place;
    for (place = 0; place < kinds; place++) {
        if (counted[place].more == 0)
            continue;
        snprintf(line, sizeof line, "%s %" PRIu64 ", %" PRIu64 " more\n", counted[place].kind, counted[place].number,
                 counted[place].more);
        write_line(STDERR_FILENO, line);
    }
    kinds = 0;
}

void note(const char *format, ...)
{
    char line[LONGEST_LINE];
    va_list values;
    va_start(values, format);
    vsnprintf(line, sizeof line, format, values);
    va_end(values);
    tell_counted();
    write_line(STDERR_FILENO, line);
}

/* A line that is jammed all night must not fill the disk with notes. */
void note_number(const char *kind, uint64_t number)
{
    char line[LONGEST_LINE];
    size_t place;
    for (place = 0; place < kinds; place++)
        if (counted[place].number == number && strcmp(counted[place].kind, kind) == 0) {
            counted[place].more++;
            return;
        }
    if (kinds == KINDS)
        tell_counted();
    counted[kinds].kind = kind;
    counted[kinds].number = number;
    counted[kinds].more = 0;
    kinds++;
    snprintf(line, sizeof line, "%s %" PRIu64 "\n", kind, number);
    write_line(STDERR_FILENO, line);
}

void fail(const char *what)
{
    note("box: %s: %s\n", what, strerror(errno));
    exit(1);
}

void fail_refused(const char *call, uint64_t number)
{
    note("box: %s: refused %" PRIu64 "\n", call, number);
    exit(1);
}

/* Room for a time, as 2026-11-17T03:12:45Z, behind a blank; or no byte. */
static void write_time(char *text, size_t size)
{
    time_t now = time(NULL);
    const struct tm *parts = gmtime(&now);
    if (!with_times || parts == NULL || strftime(text, size, " %Y-%m-%dT%H:%M:%SZ", parts) == 0)
        text[0] = '\0';
}

static void report(size_t length)
{
    static int failed;
    char line[LONGEST_LINE], when[32];
    write_time(when, sizeof when);
    snprintf(line, sizeof line, "record %jd %zu%s\n", (intmax_t)file_end, length, when);
    tell_counted();
    if (write_line(STDOUT_FILENO, line) || failed)
        return;
    failed = 1;
    note("box: report a record: %s\n", strerror(errno));
}

/* ---- Before anything is opened ---- */

/* A write with no reader, or beyond the file size limit, then fails and does not kill. */
static void ignore_write_signals(void)
{
    if (signal(SIGPIPE, SIG_IGN) == SIG_ERR || signal(SIGXFSZ, SIG_IGN) == SIG_ERR)
        fail("ignore SIGPIPE and SIGXFSZ");
}

/* A file opened while one of them is closed would get its number, and the reports or notes would go into the file. */
static void open_standard_streams(void)
{
    int stream;
    do {
        stream = open("/dev/null", O_RDWR);
        if (stream < 0)
            fail("open /dev/null");
    } while (stream <= STDERR_FILENO);
    close(stream);
}

void prepare(void)
{
    ignore_write_signals();
    open_standard_streams();
    if (atexit(tell_counted) != 0)
        fail("tell at the end what was counted");
}

int take_options(int words, char **word)
{
    with_times = words > 1 && strcmp(word[1], "--times") == 0;
    return 1 + with_times;
}

void make_raw(int line)
{
    struct termios settings;
    if (!isatty(line))
        return;
    if (tcgetattr(line, &settings) != 0)
        fail("read the serial line's settings");
    settings.c_iflag = 0;
    settings.c_oflag = 0;
    settings.c_lflag = 0;
    settings.c_cflag &= ~(tcflag_t)(CSIZE | PARENB);
    settings.c_cflag |= CS8 | CREAD;
    settings.c_cc[VMIN] = 1;
    settings.c_cc[VTIME] = 0;
    if (tcsetattr(line, TCSANOW, &settings) != 0)
        fail("set the serial line");
}

/* ---- Bytes of files ---- */

void write_all(int to, const void *bytes, size_t length, const char *what)
{
    const uint8_t *rest = bytes;
    while (length > 0) {
        ssize_t written = write(to, rest, length);
        if (written < 0 && errno == EINTR)
            continue;
        if (written < 0)
            fail(what);
        rest += written;
        length -= (size_t)written;
    }
}

/* Answers how many bytes it has read, fewer than asked for only at the end of the file, or -1 if they cannot be read. */
static ssize_t read_file(int from, uint8_t *bytes, size_t length, off_t place)
{
    size_t held = 0;
    while (held < length) {
        ssize_t count = pread(from, bytes + held, length - held, place + (off_t)held);
        if (count < 0 && errno == EINTR)
            continue;
        if (count < 0)
            return -1;
        if (count == 0)
            break;
        held += (size_t)count;
    }
    return (ssize_t)held;
}

static void sync_to_disk(int what, const char *name)
{
    while (fsync(what) != 0)
        if (errno != EINTR)
            fail(name);
}

/* The folder that has the file's name: with a symbolic link as the path, not the link's. */
static void sync_folder(void)
{
    char path[PATH_MAX];
    int folder;
    strcpy(path, own_path);
    folder = open(dirname(path), O_RDONLY);
    if (folder < 0)
        fail("open the outbox file's folder");
    sync_to_disk(folder, "sync the outbox file's folder");
    close(folder);
}

/* ---- Which file it is ---- */

static int is_same(const struct stat *one, const struct stat *other)
{
    return one->st_dev == other->st_dev && one->st_ino == other->st_ino;
}

void check_apart(const char *path, int other, const char *name)
{
    struct stat own, its;
    if (stat(path, &own) != 0)
        return;
    if (fstat(other, &its) != 0)
        fail("look at the open files");
    if (!is_same(&own, &its))
        return;
    note("box: the outbox file is %s as well\n", name);
    exit(1);
}

int is_outbox(const char *path, uint8_t *bytes, size_t size)
{
    uint64_t answer[PITO_OUTBOX_RECORD_ANSWER];
    uint64_t number;
    struct stat its;
    ssize_t held;
    int other;
    if (stat(path, &its) != 0 || !S_ISREG(its.st_mode))
        return 0;
    other = open(path, O_RDONLY);
    if (other < 0)
        return 0;
    held = read_file(other, bytes, size, 0);
    close(other);
    if (held < 0)
        return 0;
    number = pito_outbox_record(bytes, (size_t)held, PITO_FIRST_PLACE, answer, PITO_OUTBOX_RECORD_ANSWER);
    return number == PITO_DONE || number == PITO_REFUSED_RECORD_CUT;
}

static void end_for_another_box(void)
{
    note("box: another box has the outbox file\n");
    exit(1);
}

/* Two boxes on one file would report places that are not theirs. The lock ends with the program, however that ends. */
static void lock_outbox(void)
{
    struct flock whole = {0};
    whole.l_type = F_WRLCK;
    whole.l_whence = SEEK_SET;
    if (fcntl(file, F_SETLK, &whole) == 0)
        return;
    if (errno != EACCES && errno != EAGAIN)
        fail("lock the outbox file");
    end_for_another_box();
}

/* A file that lost its name before it was locked was put aside by another box. */
static void open_file(const char *path)
{
    struct stat opened, named;
    file = open(path, O_RDWR | O_CREAT | O_APPEND, 0644);
    if (file < 0)
        fail("open the outbox file");
    lock_outbox();
    if (fstat(file, &opened) != 0 || stat(path, &named) != 0)
        fail("look at the outbox file");
    if (!is_same(&opened, &named))
        end_for_another_box();
    if (!S_ISREG(opened.st_mode)) {
        note("box: the outbox is a device, a pipe or a folder\n");
        exit(1);
    }
}

/* ---- What a start does ---- */

static void begin_outbox(void)
{
    uint64_t answer[PITO_OUTBOX_NEW_ANSWER];
    uint64_t number = pito_outbox_new(outbox, outbox_size, answer, PITO_OUTBOX_NEW_ANSWER);
    if (number != PITO_DONE)
        fail_refused("pito_outbox_new", number);
    write_all(file, outbox, answer[PITO_OUTBOX_NEW_USED], "write the outbox file");
    file_end = (off_t)answer[PITO_OUTBOX_NEW_USED];
    sync_to_disk(file, "sync the outbox file");
    sync_folder();
}

/* A file beside the outbox file, with that one's name before its own ending. */
static void write_name(char *name, const char *format, unsigned number)
{
    size_t length = strlen(own_path);
    int added;
    strcpy(name, own_path);
    added = snprintf(name + length, PATH_MAX - length, format, number);
    if (added < 0 || (size_t)added >= PATH_MAX - length) {
        errno = ENAMETOOLONG;
        fail("name a file beside the outbox file");
    }
}

static const char *last_name(const char *path)
{
    return strrchr(path, '/') + 1;
}

/* The file is closed, and its lock ended, only when it has another name. */
static void put_aside(const char *why, uint64_t number)
{
    char name[PATH_MAX];
    unsigned count = 0;
    off_t place = file_end;
    struct stat is;
    do
        write_name(name, ".aside-%u", ++count);
    while (lstat(name, &is) == 0);
    if (errno != ENOENT)
        fail("find a free name");
    if (rename(own_path, name) != 0)
        fail("put the file aside");
    sync_folder();
    close(file);
    open_file(own_path);
    begin_outbox();
    note("put aside as %s: %s %" PRIu64 " at %jd\n", last_name(name), why, number, (intmax_t)place);
    note("new outbox %s\n", last_name(own_path));
}

/* Whether what is appended there is kept: bytes would be lost in a link to the outbox file, and a pipe would stop the box. */
static int is_another_file(const char *name)
{
    struct stat own, its;
    if (lstat(name, &its) != 0)
        return 1;
    if (fstat(file, &own) != 0)
        fail("look at the outbox file");
    return S_ISREG(its.st_mode) && !is_same(&own, &its);
}

/*
 * A record that was cut and one whose length was damaged look the same, and behind a damaged length whole records may stand.
 * So what is dropped, and stands in the small outbox, is on the disk under another name first.
 */
static void drop_cut_record(size_t length)
{
    char name[PATH_MAX];
    int beside;
    write_name(name, ".dropped", 0);
    if (!is_another_file(name)) {
        put_aside("cut, and .dropped is no file of its own, refused", PITO_REFUSED_RECORD_CUT);
        return;
    }
    beside = open(name, O_WRONLY | O_CREAT | O_APPEND, 0644);
    if (beside < 0)
        fail("open the file of what is dropped");
    write_all(beside, outbox + PITO_FIRST_PLACE, length, "write what is dropped");
    sync_to_disk(beside, "sync what is dropped");
    close(beside);
    sync_folder();
    while (ftruncate(file, file_end) != 0)
        if (errno != EINTR)
            fail("shorten the outbox file");
    sync_to_disk(file, "sync the outbox file");
    note("dropped %jd, kept in %s\n", (intmax_t)file_end, last_name(name));
}

/*
 * Moves the file's end behind the records that lie whole in the small outbox, whose bytes behind the version byte are those
 * from the file's end on. Answers what refused the next, or PITO_DONE.
 */
static uint64_t pass_records(size_t size)
{
    uint64_t answer[PITO_OUTBOX_RECORD_ANSWER];
    uint64_t place = PITO_FIRST_PLACE;
    uint64_t number;
    for (;;) {
        number = pito_outbox_record(outbox, size, place, answer, PITO_OUTBOX_RECORD_ANSWER);
        if (number != PITO_DONE || answer[PITO_OUTBOX_RECORD_OUTCOME] == PITO_END)
            break;
        place = answer[PITO_OUTBOX_RECORD_NEXT];
    }
    file_end += (off_t)(place - PITO_FIRST_PLACE);
    return number;
}

static void put_unreadable_aside(void)
{
    put_aside("cannot be read, error", (uint64_t)errno);
}

/*
 * Finds the end of the last whole record. A record that the small outbox cuts is read again from its own place on: the largest
 * of this box's then fits, so that only the end of the file can cut it. One that fills the small outbox is of another box.
 */
static void resume_outbox(void)
{
    size_t size;
    uint64_t number;
    off_t before;
    file_end = PITO_FIRST_PLACE;
    do {
        ssize_t held = read_file(file, outbox + PITO_FIRST_PLACE, outbox_size - PITO_FIRST_PLACE, file_end);
        if (held < 0) {
            put_unreadable_aside();
            return;
        }
        before = file_end;
        size = PITO_FIRST_PLACE + (size_t)held;
        number = pass_records(size);
    } while (file_end > before && (number == PITO_DONE || number == PITO_REFUSED_RECORD_CUT));
    switch (number) {
    case PITO_DONE:
        break;
    case PITO_REFUSED_RECORD_CUT:
        if (size == outbox_size)
            put_aside("a record is longer than this box's messages, refused", number);
        else
            drop_cut_record(size - PITO_FIRST_PLACE);
        break;
    case PITO_REFUSED_VERSION:
        file_end = 0;
        put_aside("refused", number);
        break;
    case PITO_REFUSED_RECORD_LENGTH:
    case PITO_REFUSED_RECORD_STREAM:
        put_aside("refused", number);
        break;
    default:
        fail_refused("pito_outbox_record", number);
    }
}

/*
 * A start ends with all on disk that the file holds, and the file's name in its folder: the start before may have been killed
 * at any point.
 */
static void start_outbox(const char *path)
{
    ssize_t held;
    open_file(path);
    if (realpath(path, own_path) == NULL)
        fail("find the outbox file's folder");
    sync_to_disk(file, "sync the outbox file");
    sync_folder();
    held = read_file(file, outbox, PITO_FIRST_PLACE, 0);
    if (held < 0)
        put_unreadable_aside();
    else if (held == 0)
        begin_outbox();
    else
        resume_outbox();
}

void open_outbox(const char *path, uint8_t *one_record, size_t size)
{
    outbox = one_record;
    outbox_size = size;
    check_apart(path, STDIN_FILENO, "standard input");
    check_apart(path, STDOUT_FILENO, "standard output");
    check_apart(path, STDERR_FILENO, "standard error");
    start_outbox(path);
}

/* ---- What is kept ---- */

/* Answers the record's length. It is on the disk then. */
static size_t append_record(uint64_t stream, const uint8_t *message, size_t length)
{
    uint64_t answer[PITO_OUTBOX_APPEND_ANSWER];
    uint64_t number = pito_outbox_append(outbox, outbox_size, PITO_FIRST_PLACE, stream, message, length, answer,
                                         PITO_OUTBOX_APPEND_ANSWER);
    size_t record_length;
    if (number != PITO_DONE)
        fail_refused("pito_outbox_append", number);
    record_length = answer[PITO_OUTBOX_APPEND_USED] - PITO_FIRST_PLACE;
    write_all(file, outbox + PITO_FIRST_PLACE, record_length, "write the outbox file");
    sync_to_disk(file, "sync the outbox file");
    return record_length;
}

static int has_its_name(void)
{
    struct stat opened, named;
    if (fstat(file, &opened) != 0)
        fail("look at the outbox file");
    return stat(own_path, &named) == 0 && is_same(&opened, &named);
}

/* What goes to a file that was deleted is lost, and one that was moved is no longer looked for: the record is written again. */
void keep(uint64_t stream, const uint8_t *message, size_t length)
{
    size_t record_length = append_record(stream, message, length);
    if (!has_its_name()) {
        char path[PATH_MAX];
        strcpy(path, own_path);
        close(file);
        start_outbox(path);
        note("the outbox file was taken away, new outbox %s\n", last_name(own_path));
        record_length = append_record(stream, message, length);
    }
    report(length);
    file_end += (off_t)record_length;
}
