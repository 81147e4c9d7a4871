/* desk.c: a desk for programs in C. desk.h says what each call does. */
#ifndef _GNU_SOURCE
#define _GNU_SOURCE /* pipe2 */
#endif
#include "desk.h"

#include <errno.h>
#include <fcntl.h>
#include <spawn.h>
#include <stdlib.h>
#include <string.h>
#include <sys/socket.h>
#include <sys/uio.h>
#include <sys/wait.h>
#include <unistd.h>

extern char **environ;

/* How many bytes are read at a time, at least; how many pixels stand in a line; and the largest side of an image. */
enum { LEAST_ROOM = 65536, PIXELS_OF_A_LINE = 70, LARGEST_SIDE = 32767 };

struct desk_session {
    pid_t program;
    int to;         /* the program's standard input: a socket, since writing to one can be kept from raising SIGPIPE */
    int from;       /* its standard output: a pipe, which is quicker */
    int broken;     /* below 0: what each further call gives */
    char *answer;   /* what was read of the last answer, and a zero byte behind it; NULL at first */
    size_t have;    /* how many bytes these are */
    size_t room;    /* how many there may be, the zero byte with them */
};

/* This descriptor, or in its place another above those of standard input, output and error; below 0 where there is none. */
static int moved_up(int descriptor)
{
    if (descriptor < 0 || descriptor > 2)
        return descriptor;
    int moved = fcntl(descriptor, F_DUPFD_CLOEXEC, 3);
    int why = errno;
    close(descriptor);
    errno = why;
    return moved;
}

/* Closes these descriptors, but those below 0, and leaves errno as it is. */
static void close_all(const int *descriptors, int count)
{
    int why = errno;
    for (int i = 0; i < count; i++)
        if (descriptors[i] >= 0)
            close(descriptors[i]);
    errno = why;
}

/* Makes the ends of what goes to the program and comes from it: ours, the program's, the program's, ours. None is passed on
 * to any program but by 'start'. Gives 0 where there are none. */
static int make_ends(int ends[4])
{
    int pipes[2] = {-1, -1};
    ends[0] = ends[1] = -1;
    if (socketpair(AF_UNIX, SOCK_STREAM | SOCK_CLOEXEC, 0, ends) == 0 && pipe2(pipes, O_CLOEXEC) != 0)
        pipes[0] = pipes[1] = -1;
    ends[2] = pipes[1];
    ends[3] = pipes[0];
    for (int i = 0; i < 4; i++)
        ends[i] = moved_up(ends[i]);
    for (int i = 0; i < 4; i++)
        if (ends[i] < 0) {
            close_all(ends, 4);
            return 0;
        }
    return 1;
}

/* Starts the program with these ends as its standard input and output. Gives 0, or the number of the error. */
static int start(pid_t *started, const char *program, char *font, int input, int output)
{
    char name[] = "desk";
    char *words[] = {name, font, NULL};
    posix_spawn_file_actions_t actions;
    int why = posix_spawn_file_actions_init(&actions);
    if (why)
        return why;
    why = posix_spawn_file_actions_adddup2(&actions, input, 0);
    if (!why)
        why = posix_spawn_file_actions_adddup2(&actions, output, 1);
    if (!why)
        why = posix_spawnp(started, program, &actions, NULL, words, environ);
    posix_spawn_file_actions_destroy(&actions);
    return why;
}

/* The word of the command line that names this font. NULL: there is no font, or no memory. */
static char *word_of(const char *font)
{
    static const char option[] = "--font=";
    char *word = font ? (char *)malloc(sizeof option + strlen(font)) : NULL;
    if (word) {
        memcpy(word, option, sizeof option - 1);
        strcpy(word + sizeof option - 1, font);
    }
    return word;
}

desk_session *desk_open(const char *program, const char *font)
{
    int ends[4], why = ENOMEM;
    desk_session *it = (desk_session *)calloc(1, sizeof *it);
    char *word = word_of(font);
    if (it && (word || !font)) {
        if (make_ends(ends)) {
            it->to = ends[0];
            it->from = ends[3];
            why = start(&it->program, program, word, ends[1], ends[2]);
            close_all(ends + 1, 2);
            if (why) {
                close(ends[0]);
                close(ends[3]);
            }
        } else
            why = errno;
    }
    free(word);
    if (why == 0)
        return it;
    free(it);
    errno = why;
    return NULL;
}

/* Whether a line is one line, and answered. A return at its end would belong to the ending. */
static int is_answered(const char *line, size_t length)
{
    return length > 0 && line[0] != '#' && strcmp(line, "\r") != 0 && memchr(line, '\n', length) == NULL;
}

/* Gives a line and its newline to the program, mostly in one write. */
static int send_line(desk_session *it, const char *line, size_t length)
{
    char newline[] = "\n";
    for (size_t sent = 0; sent <= length;) {
        struct iovec parts[2];
        struct msghdr all;
        parts[0].iov_base = (char *)line + sent;
        parts[0].iov_len = length - sent;
        parts[1].iov_base = newline;
        parts[1].iov_len = 1;
        memset(&all, 0, sizeof all);
        all.msg_iov = parts;
        all.msg_iovlen = 2;
        ssize_t now = sendmsg(it->to, &all, MSG_NOSIGNAL);
        if (now < 0 && errno == EINTR)
            continue;
        if (now <= 0)
            return DESK_ENDED;
        sent += (size_t)now;
    }
    return DESK_OK;
}

/* Reads what there is more of an answer, at least a byte. */
static int read_more(desk_session *it)
{
    if (it->room - it->have <= LEAST_ROOM) {
        size_t room = 2 * (it->room + LEAST_ROOM);
        char *more = (char *)realloc(it->answer, room);
        if (more == NULL)
            return DESK_NO_MEMORY;
        it->answer = more;
        it->room = room;
    }
    ssize_t now;
    do
        now = read(it->from, it->answer + it->have, it->room - it->have - 1);
    while (now < 0 && errno == EINTR);
    if (now <= 0)
        return DESK_ENDED;
    it->have += (size_t)now;
    it->answer[it->have] = 0;
    return DESK_OK;
}

/* Reads until a newline stands at this place or behind it, and gives the newline's own. */
static int read_line(desk_session *it, size_t from, size_t *end)
{
    for (size_t seen = from;;) {
        const char *at = it->have > seen ? (const char *)memchr(it->answer + seen, '\n', it->have - seen) : NULL;
        if (at) {
            *end = (size_t)(at - it->answer);
            return DESK_OK;
        }
        seen = it->have > from ? it->have : from;
        int fault = read_more(it);
        if (fault)
            return fault;
    }
}

/* The number from 1 to LARGEST_SIDE that stands here, or 0. The place goes behind its digits. */
static size_t number_at(const char **at)
{
    size_t found = 0;
    while (**at >= '0' && **at <= '9' && found <= LARGEST_SIDE)
        found = 10 * found + (size_t)(*(*at)++ - '0');
    return found <= LARGEST_SIDE ? found : 0;
}

/* Whether this is the begin of an image, a line P1 and one with its sides. The place goes to the newline behind these. */
static int has_sides(const char **at, size_t *width, size_t *height)
{
    if (strncmp(*at, "P1\n", 3) != 0)
        return 0;
    *at += 3;
    *width = number_at(at);
    if (*width == 0 || **at != ' ')
        return 0;
    ++*at;
    *height = number_at(at);
    return *height != 0 && **at == '\n';
}

/* Reads a whole answer, and gives the place of its last newline. */
static int read_answer(desk_session *it, size_t *end)
{
    size_t width, height;
    int fault = read_line(it, 0, end);
    if (fault || *end != 2 || memcmp(it->answer, "P1", 2) != 0)
        return fault;
    if ((fault = read_line(it, 3, end)))
        return fault;
    const char *at = it->answer;
    if (!has_sides(&at, &width, &height))
        return DESK_STRANGE;
    *end += height * (width + (width + PIXELS_OF_A_LINE - 1) / PIXELS_OF_A_LINE);
    while (it->have <= *end)
        if ((fault = read_more(it)))
            return fault;
    return it->answer[*end] == '\n' ? DESK_OK : DESK_STRANGE;
}

/* The number of the refusal that an answer is; 0 where it is none, and DESK_STRANGE where it has no number. */
static int refusal_of(const char *answer)
{
    static const char refused[] = "refused ";
    if (strncmp(answer, refused, sizeof refused - 1) != 0)
        return DESK_OK;
    const char *at = answer + sizeof refused - 1;
    size_t number = number_at(&at);
    return number != 0 && *at == ' ' ? (int)number : DESK_STRANGE;
}

int desk_call(desk_session *it, const char *line, const char **answer, size_t *length)
{
    size_t count = strlen(line), end = 0;
    int status = is_answered(line, count) ? it->broken : DESK_BAD_LINE;
    if (status == DESK_OK) {
        it->have = 0;
        status = send_line(it, line, count);
        if (status == DESK_OK)
            status = read_answer(it, &end);
        if (status == DESK_OK) {
            it->answer[end] = 0;
            status = refusal_of(it->answer);
        }
        it->broken = status < 0 ? status : DESK_OK;
    }
    if (answer)
        *answer = status < 0 ? "" : it->answer;
    if (length)
        *length = status < 0 ? 0 : end;
    return status;
}

/* Makes pixels of the digits from here on, and gives how many there are; more than 'count' where there are other signs. */
static size_t pixels_of(const char *at, uint8_t *pixels, size_t count)
{
    size_t made = 0;
    for (; *at; at++) {
        if (*at == '\n')
            continue;
        if ((*at != '0' && *at != '1') || made == count)
            return count + 1;
        pixels[made++] = *at == '1';
    }
    return made;
}

int desk_pixels(desk_session *it, uint8_t *pixels, size_t capacity, int *width, int *height)
{
    const char *at;
    size_t wide, high;
    *width = *height = 0;
    int status = desk_call(it, "image", &at, NULL);
    if (status)
        return status;
    if (!has_sides(&at, &wide, &high))
        return it->broken = DESK_STRANGE;
    if (capacity < wide * high) {
        *width = (int)wide;
        *height = (int)high;
        return DESK_NO_ROOM;
    }
    if (pixels_of(at, pixels, wide * high) != wide * high)
        return it->broken = DESK_STRANGE;
    *width = (int)wide;
    *height = (int)high;
    return DESK_OK;
}

int desk_close(desk_session *it)
{
    int status = 0;
    pid_t ended;
    if (it == NULL)
        return 0;
    /* the end of its script, and of whoever reads its answers */
    close(it->to);
    close(it->from);
    do
        ended = waitpid(it->program, &status, 0);
    while (ended < 0 && errno == EINTR);
    free(it->answer);
    free(it);
    if (ended < 0)
        return DESK_ENDED;
    return WIFEXITED(status) ? WEXITSTATUS(status) : 128 + WTERMSIG(status);
}
