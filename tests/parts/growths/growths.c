// Preloaded into a program, counts its growths of memory, line by line of its standard input, and refuses those that
// the input asks it to refuse.
//
// A growth is a new block of memory, or a block that becomes larger than it was last asked to be. Standard input is a
// file, and is handed over a line a read. The growths of a line are those between its read and the next. These lines
// are comments to the program:
//
//     #refuse FIRST LAST     the growths FIRST up to LAST of the next line are refused, counted from 1
//     #refuse-on FIRST LAST  the same of each line after it that has no #refuse of its own, up to the next #refuse-on
//     #each FIRST LAST STEP  for each of the numbers FIRST, FIRST + STEP and so on up to LAST a copy of the program reads
//                            on to the end of the input, one after the other, before the program itself does; the
//                            growth of this number of its next line is refused
//     #| LINE                after #each, or another such line: a line that the copies alone read, without the mark
//
// Before a read that follows another a line goes to the descriptor that GROWTHS_REPORT names, with two numbers: how
// many growths the line made that was read before, and how many of them were refused. Where something is wrong, a copy
// that does not end with status 0 among others, that is said on standard error, and the status is 70.
#include <errno.h>
#include <malloc.h>
#include <signal.h>
#include <stdio.h>
#include <stdlib.h>
#include <string.h>
#include <sys/mman.h>
#include <sys/prctl.h>
#include <sys/stat.h>
#include <sys/syscall.h>
#include <sys/wait.h>
#include <unistd.h>

// The C library's own, by names that the program does not call.
extern void *__libc_malloc(size_t size);
extern void *__libc_realloc(void *block, size_t size);
extern void *__libc_memalign(size_t alignment, size_t size);

struct range {
    unsigned long first, last;
};

// The growths to refuse of the line that was read, of the one after it, and of each line for which none are named.
static struct range refused, refused_next, refused_on;
// The growths of the line that was read, and how many of them were refused.
static unsigned long growths, refusals;

// What there is to read, and what has been read of it.
static const char *input;
static size_t input_length, place;
static unsigned long lines;
// Whether this is a copy, and whether the lines after its #each are still for it alone.
static int is_copy, is_for_copy;

static void need(int holds, const char *what, unsigned long number) {
    if (!holds) {
        dprintf(STDERR_FILENO, "%s %lu\n", what, number);
        _exit(70);
    }
}

// Counts a growth. Whether it is granted.
static int grants(void) {
    growths++;
    if (growths < refused.first || growths > refused.last)
        return 1;
    refusals++;
    errno = ENOMEM;
    return 0;
}

// Where a block keeps the size that it was asked to be: at its end, behind the bytes that are the program's.
static size_t *asked(void *block) {
    return (size_t *)((char *)block + malloc_usable_size(block)) - 1;
}

static void *sized(void *block, size_t size) {
    if (block)
        *asked(block) = size;
    return block;
}

// Whether a block of this size can keep it.
static int fits(size_t size) {
    return size <= (size_t)-1 - sizeof(size_t);
}

void *malloc(size_t size) {
    return fits(size) && grants() ? sized(__libc_malloc(size + sizeof(size_t)), size) : NULL;
}

void *calloc(size_t count, size_t size) {
    size_t bytes;
    void *block = __builtin_mul_overflow(count, size, &bytes) ? NULL : malloc(bytes);
    return block ? memset(block, 0, bytes) : NULL;
}

void *realloc(void *block, size_t size) {
    if (!block)
        return malloc(size);
    if (!fits(size) || (size > *asked(block) && !grants()))
        return NULL;
    return sized(__libc_realloc(block, size + sizeof(size_t)), size);
}

void *memalign(size_t alignment, size_t size) {
    return fits(size) && grants() ? sized(__libc_memalign(alignment, size + sizeof(size_t)), size) : NULL;
}

void *aligned_alloc(size_t alignment, size_t size) {
    return memalign(alignment, size);
}

int posix_memalign(void **block, size_t alignment, size_t size) {
    void *got = memalign(alignment, size);
    if (got)
        *block = got;
    return got ? 0 : ENOMEM;
}

// Tells of the line that was read last, if there was one.
static void report(void) {
    const char *to = getenv("GROWTHS_REPORT");
    char line[64];
    int length = snprintf(line, sizeof line, "%lu %lu\n", growths, refusals);
    need(to && write(atoi(to), line, length) == length, "no report of line", lines);
}

static void open_input(void) {
    struct stat file;
    need(!fstat(STDIN_FILENO, &file) && S_ISREG(file.st_mode) && file.st_size > 0, "no file for line", 1);
    input_length = file.st_size;
    input = mmap(NULL, input_length, PROT_READ, MAP_PRIVATE, STDIN_FILENO, 0);
    need(input != MAP_FAILED, "no file for line", 1);
}

// Makes a copy in which this growth is refused, and waits until it has ended well.
static void make_copy(unsigned long growth) {
    int status = 0;
    is_copy = is_for_copy = fork() == 0;
    if (is_copy) {
        // A copy does not outlive a program that is stopped.
        prctl(PR_SET_PDEATHSIG, SIGKILL);
        refused_next = (struct range){growth, growth};
    } else {
        need(wait(&status) > 0 && status == 0, "a bad end of copy", growth);
    }
}

// Does what a line asks for, if it is one of ours. A copy makes no copies.
static void obey(const char *line, size_t length) {
    char mark[64] = "";
    unsigned long first, last, step;
    if (length >= sizeof mark)
        return;
    memcpy(mark, line, length);
    if (sscanf(mark, "#each %lu %lu %lu", &first, &last, &step) == 3)
        for (unsigned long growth = first; growth <= last && !is_copy; growth += step)
            make_copy(growth);
    sscanf(mark, "#refuse %lu %lu", &refused_next.first, &refused_next.last);
    if (sscanf(mark, "#refuse-on %lu %lu", &first, &last) == 2)
        refused_next = refused_on = (struct range){first, last};
}

// Turns to the next line. Its length.
static size_t take_line(const char **line) {
    const char *end = memchr(input + place, '\n', input_length - place);
    need(end != NULL, "no end of line", lines);
    *line = input + place;
    place = end + 1 - input;
    is_for_copy = is_for_copy && (*line)[0] == '#' && (*line)[1] == '|';
    if (is_for_copy)
        *line += strlen("#| ");
    return end + 1 - *line;
}

ssize_t read(int file, void *to, size_t most) {
    const char *line;
    size_t length;
    if (file != STDIN_FILENO)
        return syscall(SYS_read, file, to, most);
    if (input)
        report();
    else
        open_input();
    growths = refusals = 0;
    refused = refused_next;
    refused_next = refused_on;
    if (place == input_length)
        return 0;
    lines++;
    length = take_line(&line);
    need(length <= most, "no room for line", lines);
    obey(line, length);
    memcpy(to, line, length);
    return length;
}
