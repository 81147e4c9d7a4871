/* A program over libdesk.a, for the program library beside this file. With the words
 *   run CAPACITY [--raw] [--check]   it answers the script on standard input by desk_run, with so many bytes of room
 *   serve [--raw] [--check]          it has desk_serve answer it, from standard input to standard output
 * and ends with the status that the call gives, 255 for -1; the call has 1 MB of stack. Without words it tests what no script shows; what is due is worked
 * out by hand, from clients/c/libdesk.h and docs/SCRIPT.md. Then there is a line for each test that fails, and the last line is
 * 'N passed, M failed'. */
#define _POSIX_C_SOURCE 200809L
#include "libdesk.h"

#include <errno.h>
#include <pthread.h>
#include <signal.h>
#include <stdio.h>
#include <stdlib.h>
#include <string.h>
#include <unistd.h>

enum { LONGEST_SCRIPT = 1 << 24, SERVED = 4, CALLS = 200, STACK = 1 << 20 };

/* What is wrong with the test that runs. */
static char fault[400];

#define WANT(what, is) do { if (!(is) && !fault[0]) snprintf(fault, sizeof fault, "line %d: %s", __LINE__, what); } while (0)

static const char DESK[] = "desk 8 8 0\nimage\n";
static const char DESK_ANSWERS[] =
    "ok\nP1\n8 8\n10101010\n01010101\n10101010\n01010101\n10101010\n01010101\n10101010\n01010101\n";

/* Runs this script with so much room of those that are filled with sevens, and wants this status and these answers. Behind them
 * the room has to be as it was. */
static void answered(const char *script, size_t capacity, bool raw, bool check, int status, const char *due)
{
    uint8_t out[200];
    size_t written = 77;
    memset(out, 7, sizeof out);
    int found = desk_run((const uint8_t *)script, strlen(script), out, capacity, &written, raw, check);
    if ((found != status || written != strlen(due) || memcmp(out, due, strlen(due)) != 0) && !fault[0])
        snprintf(fault, sizeof fault, "%d and %zu bytes in place of %d and '%.80s'", found, written, status, due);
    for (size_t at = written; at < sizeof out; at++)
        WANT("what is behind the answers", out[at] == 7);
}

static void a_script_is_answered(void)
{
    answered(DESK, 200, false, false, LIBDESK_DONE, DESK_ANSWERS);
    answered("close 1\ndesk 8 8 0\nclose 1", 200, false, false, LIBDESK_DONE, "refused 2 NoSuchWindow\nrefused 11 Busy\nrefused 2 NoSuchWindow\n");
    answered("desk 8 8 0\n", 200, false, true, LIBDESK_DONE, "ok\ncheck 0\n");
    answered(DESK, 200, true, false, LIBDESK_DONE, "P4\n8 8\n\xAA\x55\xAA\x55\xAA\x55\xAA\x55");
    answered("", 200, false, false, LIBDESK_DONE, "");
    answered("# nothing\n", 0, false, false, LIBDESK_DONE, "");
}

static void room_that_is_too_small_is_filled(void)
{
    char front[sizeof DESK_ANSWERS];
    for (size_t room = 0; room < strlen(DESK_ANSWERS); room++) {
        strcpy(front, DESK_ANSWERS);
        front[room] = 0;
        answered(DESK, room, false, false, LIBDESK_WRITE_FAULT, front);
    }
    answered(DESK, strlen(DESK_ANSWERS), false, false, LIBDESK_DONE, DESK_ANSWERS);
    answered("desk 8 8 0\n", 10, false, true, LIBDESK_WRITE_FAULT, "ok\ncheck 0");
}

static void flags_exclude_each_other(void)
{
    answered(DESK, 200, true, true, LIBDESK_EXCLUDED, "");
    answered(DESK, 0, true, true, LIBDESK_EXCLUDED, "");
}

/* Which call of malloc or realloc gives none, counted from 0, and how many there were: below 0 they are not counted. The linker
 * has all calls of them come here (--wrap). */
static long refused = -1, asked_for = -1;

void *__real_malloc(size_t size);
void *__real_realloc(void *from, size_t size);
void *__wrap_malloc(size_t size);
void *__wrap_realloc(void *from, size_t size);

static bool is_refused(void)
{
    return asked_for >= 0 && asked_for++ == refused;
}

void *__wrap_malloc(size_t size)
{
    return is_refused() ? NULL : __real_malloc(size);
}

void *__wrap_realloc(void *from, size_t size)
{
    return is_refused() ? NULL : __real_realloc(from, size);
}

/* Each call for memory is refused in turn: no desk is made then, or the image is refused. */
static void want_of_memory_is_told(void)
{
    static const char none[] = "ok\nrefused 1 NoMemory\n";
    uint8_t out[200];
    int32_t status;
    for (refused = 0;; refused++) {
        size_t written = 77;
        asked_for = 0;
        memset(out, 7, sizeof out);
        status = desk_run((const uint8_t *)DESK, strlen(DESK), out, sizeof out, &written, false, false);
        if (asked_for <= refused)
            break;
        bool is_none = status == LIBDESK_DONE && written == strlen(none) && memcmp(out, none, written) == 0;
        WANT("a status", is_none || (status == LIBDESK_NO_MEMORY && written == 0 && out[0] == 7));
    }
    WANT("some calls for memory", refused > 1);
    WANT("the last run had all", status == LIBDESK_DONE);
    asked_for = -1;
}

/* A desk that a thread serves: the ends of two pipes, and how it ended. */
struct served {
    int input, to, from, output;
    bool raw, check;
    int32_t status;
    pthread_t thread;
};

static void *serve(void *it)
{
    struct served *desk = (struct served *)it;
    desk->status = desk_serve(desk->input, desk->output, desk->raw, desk->check);
    close(desk->input);
    close(desk->output);
    return NULL;
}

/* Begins one, in a thread with as little stack as a call may want. */
static void begin(struct served *desk, bool raw, bool check)
{
    int in[2], answers[2];
    pthread_attr_t how;
    WANT("pipes", pipe(in) == 0 && pipe(answers) == 0);
    desk->input = in[0], desk->to = in[1], desk->from = answers[0], desk->output = answers[1];
    desk->raw = raw, desk->check = check;
    WANT("a size", pthread_attr_init(&how) == 0 && pthread_attr_setstacksize(&how, STACK) == 0);
    WANT("a thread", pthread_create(&desk->thread, &how, serve, desk) == 0);
    pthread_attr_destroy(&how);
}

/* Ends one, and wants this status, and nothing more that is answered. */
static void ended(struct served *desk, int status)
{
    char byte;
    close(desk->to);
    WANT("no answer is left", read(desk->from, &byte, 1) == 0);
    pthread_join(desk->thread, NULL);
    close(desk->from);
    WANT("its status", desk->status == status);
}

/* Gives a desk this line, and wants this answer. */
static void asked(struct served *desk, const char *line, const char *due)
{
    char answer[200];
    size_t have = 0;
    WANT("a line goes in", write(desk->to, line, strlen(line)) == (ssize_t)strlen(line));
    while (have < strlen(due)) {
        ssize_t now = read(desk->from, answer + have, sizeof answer - have);
        if (now <= 0)
            break;
        have += (size_t)now;
    }
    if ((have != strlen(due) || memcmp(answer, due, have) != 0) && !fault[0])
        snprintf(fault, sizeof fault, "%.40s: '%.*s' in place of '%.80s'", line, (int)have, answer, due);
}

static void a_served_desk_answers_line_by_line(void)
{
    struct served desk;
    begin(&desk, false, false);
    asked(&desk, "desk 9 9 0\n", "ok\n");
    asked(&desk, "window plain 2 2 4 3 1 0 \"\"\n", "ok 1\n");
    asked(&desk, "\n# nothing\nfind 5 ", "");
    asked(&desk, "4\n", "ok 3 1\n");
    asked(&desk, "close 7\nfind 6 4\n", "refused 2 NoSuchWindow\nok 0 1\n");
    ended(&desk, LIBDESK_DONE);
    begin(&desk, true, false);
    asked(&desk, DESK, "P4\n8 8\n\xAA\x55\xAA\x55\xAA\x55\xAA\x55");
    ended(&desk, LIBDESK_DONE);
    begin(&desk, true, true);
    ended(&desk, LIBDESK_EXCLUDED);
}

static void a_served_desk_answers_its_last_line_and_is_checked(void)
{
    struct served desk;
    char answers[40];
    begin(&desk, false, true);
    asked(&desk, "desk 8 8 0\n", "ok\n");
    asked(&desk, "frontwin", "");
    close(desk.to);
    desk.to = -1;
    pthread_join(desk.thread, NULL);
    ssize_t have = read(desk.from, answers, sizeof answers);
    WANT("the last answers", have == 13 && memcmp(answers, "ok 0\ncheck 0\n", 13) == 0);
    WANT("its status", desk.status == LIBDESK_DONE);
    close(desk.from);
}

static void an_output_that_nobody_reads_is_told(void)
{
    struct served desk;
    begin(&desk, false, false);
    asked(&desk, "desk 8 8 0\n", "ok\n");
    close(desk.from);
    WANT("a line goes in", write(desk.to, "frontwin\n", 9) == 9);
    pthread_join(desk.thread, NULL);
    close(desk.to);
    WANT("its status", desk.status == LIBDESK_WRITE_FAULT);
    WANT("no descriptor", desk_serve(-1, -1, false, false) == LIBDESK_DONE);
}

static void desks_in_several_threads_know_nothing_of_each_other(void)
{
    struct served desks[SERVED];
    char line[80], due[80];
    for (int at = 0; at < SERVED; at++) {
        begin(&desks[at], false, false);
        snprintf(line, sizeof line, "desk %d 40 0\n", 40 + at);
        asked(&desks[at], line, "ok\n");
        snprintf(line, sizeof line, "window plain %d 2 4 3 1 0 \"\"\n", 2 + at);
        asked(&desks[at], line, "ok 1\n");
    }
    for (int call = 0; call < CALLS; call++)
        for (int at = 0; at < SERVED; at++) {
            snprintf(due, sizeof due, "ok %d 2 4 3 1 1\n", 2 + at);
            asked(&desks[at], "info 1\n", due);
        }
    for (int at = 0; at < SERVED; at++)
        ended(&desks[at], LIBDESK_DONE);
}

static void calls_one_after_another_have_desks_of_their_own(void)
{
    for (int call = 0; call < CALLS; call++) {
        answered(DESK, 200, false, false, LIBDESK_DONE, DESK_ANSWERS);
        answered("close 1\n", 200, false, false, LIBDESK_DONE, "refused 2 NoSuchWindow\n");
    }
}

/* A call with the script on standard input, as the words say, and its status. */
struct call {
    const char *how;
    size_t capacity;
    bool raw, check;
    int32_t status;
};

static void *answer(void *it)
{
    struct call *call = (struct call *)it;
    if (strcmp(call->how, "serve") == 0) {
        call->status = desk_serve(0, 1, call->raw, call->check);
        return NULL;
    }
    size_t written = 0, length;
    uint8_t *script = (uint8_t *)malloc(LONGEST_SCRIPT), *out = (uint8_t *)malloc(call->capacity + 1);
    if (script != NULL && out != NULL) {
        length = fread(script, 1, LONGEST_SCRIPT, stdin);
        call->status = desk_run(script, length, out, call->capacity, &written, call->raw, call->check);
        fwrite(out, 1, written, stdout);
    }
    free(script);
    free(out);
    return NULL;
}

/* Makes such a call, in a thread with as little stack as it may want. */
static int called(int count, char **words)
{
    struct call call = {words[1], 0, false, false, 254};
    pthread_attr_t how;
    pthread_t thread;
    for (int at = 2; at < count; at++) {
        call.raw |= strcmp(words[at], "--raw") == 0;
        call.check |= strcmp(words[at], "--check") == 0;
    }
    if (count > 2)
        call.capacity = strtoul(words[2], NULL, 10);
    if (pthread_attr_init(&how) != 0 || pthread_attr_setstacksize(&how, STACK) != 0)
        return 254;
    if (pthread_create(&thread, &how, answer, &call) != 0 || pthread_join(thread, NULL) != 0)
        return 254;
    return call.status & 255;
}

int main(int count, char **words)
{
    static const struct {
        const char *name;
        void (*test)(void);
    } tests[] = {
        {"a script is answered", a_script_is_answered},
        {"room that is too small is filled", room_that_is_too_small_is_filled},
        {"flags exclude each other", flags_exclude_each_other},
        {"want of memory is told", want_of_memory_is_told},
        {"a served desk answers line by line", a_served_desk_answers_line_by_line},
        {"a served desk answers its last line and is checked", a_served_desk_answers_its_last_line_and_is_checked},
        {"an output that nobody reads is told", an_output_that_nobody_reads_is_told},
        {"desks in several threads know nothing of each other", desks_in_several_threads_know_nothing_of_each_other},
        {"calls one after another have desks of their own", calls_one_after_another_have_desks_of_their_own},
    };
    int passed = 0, failed = 0;
    if (count > 1)
        return called(count, words);
    signal(SIGPIPE, SIG_IGN);
    for (size_t at = 0; at < sizeof tests / sizeof *tests; at++) {
        fault[0] = 0;
        tests[at].test();
        if (fault[0])
            printf("FAILED: %s: %s\n", tests[at].name, fault);
        passed += !fault[0];
        failed += !!fault[0];
    }
    printf("%d passed, %d failed\n", passed, failed);
    return failed > 0;
}
