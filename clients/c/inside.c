/* inside.c: a desk inside this program: a whole script in one call, and then a desk that a thread serves and that is asked line
 * by line. To compile it, type: cc -pthread -o inside inside.c libdesk.a */
#define _POSIX_C_SOURCE 200809L /* dprintf */
#include "libdesk.h"

#include <pthread.h>
#include <stdio.h>
#include <string.h>
#include <unistd.h>

/* The ends of two pipes: what goes to the desk and what comes from it, and how it ended. */
struct served {
    int input, to, from, output;
    int32_t status;
};

static void *serve(void *it)
{
    struct served *desk = (struct served *)it;
    desk->status = desk_serve(desk->input, desk->output, false, false);
    close(desk->output); /* so that whoever waits for an answer sees the end */
    return NULL;
}

/* Gives a line to the desk, and prints its answer, which is a line too. */
static void ask(struct served *desk, const char *line)
{
    char answer[80];
    ssize_t have = 0, now;
    dprintf(desk->to, "%s\n", line);
    while (have < (ssize_t)sizeof answer && (now = read(desk->from, answer + have, sizeof answer - (size_t)have)) > 0) {
        have += now;
        if (answer[have - 1] == '\n')
            break;
    }
    printf("%.*s", (int)have, answer);
}

int main(void)
{
    static const char script[] = "desk 8 8 0\nwindow plain 1 1 6 6 1 0 \"\"\nimage\n";
    uint8_t out[1000];
    size_t written;
    int32_t status = desk_run((const uint8_t *)script, strlen(script), out, sizeof out, &written, false, false);
    printf("%d, %zu bytes:\n%.*s", (int)status, written, (int)written, (const char *)out);

    struct served desk;
    int in[2], answers[2];
    pthread_t thread;
    if (pipe(in) != 0 || pipe(answers) != 0)
        return 1;
    desk.input = in[0], desk.to = in[1], desk.from = answers[0], desk.output = answers[1];
    if (pthread_create(&thread, NULL, serve, &desk) != 0)
        return 1;
    ask(&desk, "desk 8 8 0");
    ask(&desk, "window plain 1 1 6 6 1 0 \"\"");
    ask(&desk, "find 4 4");
    ask(&desk, "close 2");
    close(desk.to); /* the end of the script */
    pthread_join(thread, NULL);
    printf("%d\n", (int)desk.status);
    return status == LIBDESK_DONE && desk.status == LIBDESK_DONE ? 0 : 1;
}
