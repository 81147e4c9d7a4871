// Preloaded into a program, makes the ends of its work bad: the file that it reads gives few bytes at a time, or fails at
// some byte, and so does standard output with the bytes that it takes.
//
// The environment says what is bad:
//
//     ENDS_FILE   the path of the file. Every descriptor that reads it counts, standard input too
//     ENDS_READ   MOST STOP ERROR, for the reads of that file
//     ENDS_WRITE  MOST STOP ERROR, for the writes to standard output
//
// One call moves MOST bytes at most, and none past byte STOP, counted from 0: the bytes before it are moved, and the rest
// is left to the next call. The call that begins at byte STOP fails with the error ERROR, once; after that all goes on.
// Where ERROR is 0 it moves nothing and does not fail, and where it is -1 it is as any other.
#include <errno.h>
#include <limits.h>
#include <stdio.h>
#include <stdlib.h>
#include <sys/stat.h>
#include <sys/syscall.h>
#include <sys/types.h>
#include <unistd.h>

struct end {
    long most, stop, error;
    // How many bytes have been moved.
    long place;
};

static struct end reads = {LONG_MAX, LONG_MAX, -1, 0};
static struct end writes = {LONG_MAX, LONG_MAX, -1, 0};
static struct stat file_read;

static void need(int holds, const char *what) {
    if (!holds) {
        dprintf(STDERR_FILENO, "there is no right %s\n", what);
        _exit(70);
    }
}

static void set(struct end *end, const char *name) {
    const char *text = getenv(name);
    need(!text || sscanf(text, "%ld %ld %ld", &end->most, &end->stop, &end->error) == 3, name);
}

__attribute__((constructor)) static void begin(void) {
    const char *path = getenv("ENDS_FILE");
    need(path && !stat(path, &file_read), "ENDS_FILE");
    set(&reads, "ENDS_READ");
    set(&writes, "ENDS_WRITE");
}

// How many bytes a call moves that is to move so many, or -1 where it fails.
static ssize_t granted(struct end *end, size_t wanted) {
    long least = end->most;
    if (end->place == end->stop) {
        end->stop = LONG_MAX;
        if (end->error > 0)
            errno = end->error;
        if (end->error >= 0)
            return end->error ? -1 : 0;
    }
    if (end->place < end->stop && end->stop - end->place < least)
        least = end->stop - end->place;
    return wanted < (size_t)least ? (ssize_t)wanted : least;
}

// Moves bytes by a call of the system, as far as this end grants it.
static ssize_t move(struct end *end, long call, int file, const void *bytes, size_t wanted) {
    ssize_t count = granted(end, wanted);
    if (count > 0)
        count = syscall(call, file, bytes, count);
    if (count > 0)
        end->place += count;
    return count;
}

static int is_file_read(int file) {
    struct stat found;
    return !fstat(file, &found) && found.st_dev == file_read.st_dev && found.st_ino == file_read.st_ino;
}

ssize_t read(int file, void *to, size_t most) {
    return is_file_read(file) ? move(&reads, SYS_read, file, to, most) : syscall(SYS_read, file, to, most);
}

ssize_t write(int file, const void *from, size_t count) {
    int is_answer = file == STDOUT_FILENO;
    return is_answer ? move(&writes, SYS_write, file, from, count) : syscall(SYS_write, file, from, count);
}
