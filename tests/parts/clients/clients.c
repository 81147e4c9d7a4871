/* Tests of clients/c, for the program clients beside this file: the first word of the command line names the program desk, the
 * second a folder of other programs, which end or answer strangely. What is due is worked out by hand, from docs/SCRIPT.md.
 * There is a line for each test that fails, and the last line is 'N passed, M failed'. */
#define _GNU_SOURCE /* waitid */
#include "desk.h"

#include <dirent.h>
#include <errno.h>
#include <fcntl.h>
#include <pthread.h>
#include <signal.h>
#include <stdio.h>
#include <stdlib.h>
#include <string.h>
#include <sys/wait.h>
#include <unistd.h>

static const char *program, *folder;
/* What is wrong with the test that runs. */
static char fault[400];

#define WANT(what, is) do { if (!(is) && !fault[0]) snprintf(fault, sizeof fault, "line %d: %s", __LINE__, what); } while (0)

/* Wants a line to be answered so; a status below 0 goes with no answer. */
static void answered(desk_session *desk, const char *line, int status, const char *due)
{
    const char *answer = "none";
    size_t length = 1000;
    int found = desk_call(desk, line, &answer, &length);
    if ((found != status || strcmp(answer, due) != 0 || length != strlen(due)) && !fault[0])
        snprintf(fault, sizeof fault, "%.40s: %d '%.80s' in place of %d '%.80s'", line, found, answer, status, due);
}

/* A session with one of the other programs. */
static desk_session *other(const char *name)
{
    char path[4096];
    snprintf(path, sizeof path, "%s/%s", folder, name);
    desk_session *desk = desk_open(path, NULL);
    WANT(name, desk != NULL);
    return desk;
}

/* A desk of this size, without a menu bar. */
static desk_session *desk_of(int width, int height)
{
    char line[40];
    desk_session *desk = desk_open(program, NULL);
    WANT("a desk", desk != NULL);
    snprintf(line, sizeof line, "desk %d %d 0", width, height);
    answered(desk, line, DESK_OK, "ok");
    return desk;
}

static void lines_are_answered(void)
{
    desk_session *desk = desk_of(9, 9);
    answered(desk, "window plain 2 2 4 3 1 0 \"\"", DESK_OK, "ok 1");
    answered(desk, "find 5 4", DESK_OK, "ok 3 1");
    answered(desk, "find 6 4", DESK_OK, "ok 0 1");
    answered(desk, "find 8 8\r", DESK_OK, "ok 0 0");
    answered(desk, "info 1", DESK_OK, "ok 2 2 4 3 1 1");
    WANT("without an answer", desk_call(desk, "frontwin", NULL, NULL) == DESK_OK);
    WANT("a status", desk_close(desk) == 0);
    WANT("nothing is closed", desk_close(NULL) == 0);
}

static void refusals_are_numbers(void)
{
    static char line[1000001];
    desk_session *desk = desk_of(9, 9);
    answered(desk, "close 7", 2, "refused 2 NoSuchWindow");
    answered(desk, "windw", 15, "refused 15 BadSyntax");
    answered(desk, "desk 8 8 0", 11, "refused 11 Busy");
    memset(line, 'x', 1025);
    answered(desk, line, 10, "refused 10 TooLong");
    /* more than a socket takes at once */
    memset(line, 'x', 1000000);
    answered(desk, line, 10, "refused 10 TooLong");
    answered(desk, "frontwin", DESK_OK, "ok 0");
    WANT("a status", desk_close(desk) == 0);
}

/* Bytes that a text has no sign for are hex digits, in a line and in an answer. */
static void texts_are_edited(void)
{
    desk_session *desk = desk_open(program, NULL);
    WANT("a desk", desk != NULL);
    answered(desk, "version 3", DESK_OK, "ok");
    answered(desk, "desk 64 32 0", DESK_OK, "ok");
    answered(desk, "window plain 1 1 60 28 1 0 \"\"", DESK_OK, "ok 1");
    answered(desk, "tget 1 1", 21, "refused 21 NoSuchText");
    answered(desk, "text 1 2 2 50 2 2 50 20 0 1", DESK_OK, "ok 1");
    answered(desk, "tset 1 1 610D62", DESK_OK, "ok");
    answered(desk, "tkey 1 1 99", DESK_OK, "ok");
    answered(desk, "tget 1 1", DESK_OK, "ok 610D6263");
    answered(desk, "tinfo 1 1", DESK_OK, "ok 4 4 0 1 4 2 2 2");
    answered(desk, "tclick 1 1 4 15 2", DESK_OK, "ok 1");
    answered(desk, "tcut 1 1", 11, "refused 11 Busy");
    answered(desk, "tend 4 15", DESK_OK, "ok 2 4");
    answered(desk, "tcut 1 1", DESK_OK, "ok");
    answered(desk, "scrap", DESK_OK, "ok \"bc\"");
    WANT("a status", desk_close(desk) == 0);
}

static void what_has_no_answer_is_not_given(void)
{
    static const char *const lines[] = {"", "\r", "# desk", "find 1 1\nfind 2 2", "\n"};
    desk_session *desk = desk_of(9, 9);
    for (size_t i = 0; i < sizeof lines / sizeof *lines; i++)
        answered(desk, lines[i], DESK_BAD_LINE, "");
    answered(desk, "find 1 1", DESK_OK, "ok 0 0");
    desk_close(desk);
}

static void an_answer_may_be_the_next_line(void)
{
    const char *answer;
    desk_session *desk = desk_of(9, 9);
    WANT("an answer", desk_call(desk, "frontwin", &answer, NULL) == DESK_OK);
    answered(desk, answer, 15, "refused 15 BadSyntax");
    desk_close(desk);
}

static void the_screen_has_its_pixels(void)
{
    static const char rows[] = "1111111110000001100000011001100110011001100000011000000111111111";
    uint8_t pixels[65];
    int width = 1, height = 1;
    desk_session *desk = desk_of(8, 8);
    answered(desk, "window plain 1 1 6 6 1 0 \"\"", DESK_OK, "ok 1");
    answered(desk, "draw 1 fill 2 2 4 4 patCopy black", DESK_OK, "ok");
    memset(pixels, 7, sizeof pixels);
    WANT("room", desk_pixels(desk, pixels, 63, &width, &height) == DESK_NO_ROOM && width == 8 && height == 8);
    WANT("what is not given", pixels[0] == 7);
    WANT("the pixels", desk_pixels(desk, pixels, 64, &width, &height) == DESK_OK && width == 8 && height == 8);
    for (int i = 0; i < 64; i++)
        WANT("a pixel", pixels[i] == rows[i] - '0');
    WANT("what is behind them", pixels[64] == 7);
    WANT("a status", desk_close(desk) == 0);
}

/* A desktop alone is gray: every other pixel is black, the first one among them. A row of 71 takes two lines. */
static void screens_of_all_sizes_are_whole(void)
{
    static const int sides[][2] = {{70, 8}, {71, 9}, {140, 8}, {1024, 1024}};
    static uint8_t pixels[1024 * 1024];
    for (size_t i = 0; i < sizeof sides / sizeof *sides; i++) {
        int width, height, wrong = 0;
        desk_session *desk = desk_of(sides[i][0], sides[i][1]);
        WANT("an image", desk_pixels(desk, pixels, sizeof pixels, &width, &height) == DESK_OK);
        WANT("its sides", width == sides[i][0] && height == sides[i][1]);
        for (int at = 0; at < width * height; at++)
            wrong += pixels[at] != ((at % width + at / width) % 2 == 0);
        WANT("its pixels", wrong == 0);
        WANT("a status", desk_close(desk) == 0);
    }
}

static void a_program_that_ends_is_told(void)
{
    int width, height;
    uint8_t pixels[4];
    siginfo_t ended;
    desk_session *desk = other("ends");
    answered(desk, "desk 8 8 0", DESK_OK, "ok");
    /* once it has, a write to it would raise a signal */
    WANT("its end", waitid(P_ALL, 0, &ended, WEXITED | WNOWAIT) == 0);
    for (int i = 0; i < 3; i++)
        answered(desk, "find 1 1", DESK_ENDED, "");
    answered(desk, "#", DESK_BAD_LINE, "");
    WANT("its pixels", desk_pixels(desk, pixels, 4, &width, &height) == DESK_ENDED && width == 0 && height == 0);
    WANT("its status", desk_close(desk) == 3);
    desk = other("is-killed");
    answered(desk, "image", DESK_ENDED, "");
    WANT("its signal", desk_close(desk) == 128 + 9);
    desk = other("gives-half-an-image");
    answered(desk, "image", DESK_ENDED, "");
    desk_close(desk);
    desk = other("gives-half-a-line");
    answered(desk, "image", DESK_ENDED, "");
    desk_close(desk);
}

static void what_is_no_answer_is_told(void)
{
    static const char *const names[] = {"no-height", "no-width", "high", "no-number", "no-name", "long-rows"};
    int width, height;
    uint8_t pixels[4];
    for (size_t i = 0; i < sizeof names / sizeof *names; i++) {
        desk_session *desk = other(names[i]);
        answered(desk, "image", DESK_STRANGE, "");
        answered(desk, "frontwin", DESK_STRANGE, "");
        desk_close(desk);
    }
    static const char *const images[] = {"other-sign", "few-pixels", "no-image"};
    for (size_t i = 0; i < sizeof images / sizeof *images; i++) {
        desk_session *desk = other(images[i]);
        WANT(images[i], desk_pixels(desk, pixels, 4, &width, &height) == DESK_STRANGE && width == 0 && height == 0);
        answered(desk, "frontwin", DESK_STRANGE, "");
        desk_close(desk);
    }
}

static void an_answer_may_come_in_parts(void)
{
    desk_session *desk = other("slow");
    answered(desk, "image", DESK_OK, "P1\n2 2\n10\n01");
    answered(desk, "close 7", 2, "refused 2 NoSuchWindow");
    WANT("its status", desk_close(desk) == 0);
}

/* How many descriptors are open. */
static int descriptors(void)
{
    int count = 0;
    DIR *all = opendir("/proc/self/fd");
    while (all && readdir(all))
        count++;
    if (all)
        closedir(all);
    return count;
}

static void what_is_not_there_is_told(void)
{
    char path[4096];
    int before = descriptors();
    WANT("no program", desk_open("/no/such/desk", NULL) == NULL && errno == ENOENT);
    WANT("no name", desk_open("no-such-desk", "/no/font") == NULL && errno == ENOENT);
    snprintf(path, sizeof path, "%s/is-not-run", folder);
    WANT("no right", desk_open(path, NULL) == NULL && errno == EACCES);
    desk_session *desk = desk_open(program, "/no/such/font");
    answered(desk, "desk 8 8 0", DESK_ENDED, "");
    WANT("the status without a font", desk_close(desk) == 1);
    WANT("open descriptors", descriptors() == before);
}

/* The second program must not hold the pipes of the first, which would never come to the end of its script. */
static void each_session_ends_by_itself(void)
{
    int before = descriptors();
    desk_session *first = desk_of(8, 8), *second = desk_of(9, 9);
    WANT("the first", desk_close(first) == 0);
    answered(second, "find 8 8", DESK_OK, "ok 0 0");
    WANT("the second", desk_close(second) == 0);
    WANT("open descriptors", descriptors() == before);
}

/* How many descriptors a program is started with. */
static int started_with(void)
{
    const char *answer = "";
    desk_session *desk = other("descriptors");
    WANT("a number", desk_call(desk, "how many", &answer, NULL) == DESK_OK);
    int count = atoi(answer);
    desk_close(desk);
    return count;
}

static void a_program_has_no_descriptor_of_another_session(void)
{
    int alone = started_with();
    desk_session *desk = desk_of(8, 8);
    WANT("the descriptors", alone >= 3 && started_with() == alone);
    desk_close(desk);
}

static void *works(void *given)
{
    static uint8_t pixels[4][12 * 12];
    int at = *(int *)given, width, height, wrong = 0;
    char line[40], due[40];
    const char *answer;
    desk_session *desk = desk_open(program, NULL);
    snprintf(line, sizeof line, "desk %d %d 0", 8 + at, 8 + at);
    wrong += desk == NULL || desk_call(desk, line, NULL, NULL) != DESK_OK;
    for (int i = 1; i <= 16; i++) {
        snprintf(due, sizeof due, "ok %d", i);
        wrong += desk_call(desk, "window plain 1 1 4 4 1 0 \"\"", &answer, NULL) || strcmp(answer, due) != 0;
    }
    wrong += desk_pixels(desk, pixels[at], sizeof pixels[at], &width, &height) != DESK_OK || width != 8 + at;
    wrong += desk_close(desk) != 0;
    *(int *)given = wrong;
    return NULL;
}

static void threads_have_sessions_of_their_own(void)
{
    pthread_t threads[4];
    int given[4];
    for (int i = 0; i < 4; i++) {
        given[i] = i;
        WANT("a thread", pthread_create(&threads[i], NULL, works, &given[i]) == 0);
    }
    for (int i = 0; i < 4; i++) {
        pthread_join(threads[i], NULL);
        WANT("what a thread does", given[i] == 0);
    }
}

/* In a process of its own, which has no standard input, output and error left. None of a session's descriptors takes the place
 * of one of them, where whatever else the process writes would go to the program. */
static void standard_descriptors_may_be_closed(void)
{
    int status = 0;
    pid_t child = fork();
    if (child == 0) {
        for (int i = 0; i < 3; i++)
            close(i);
        desk_session *desk = desk_open(program, NULL);
        int is_well = desk && desk_call(desk, "desk 8 8 0", NULL, NULL) == DESK_OK;
        for (int i = 0; i < 3; i++)
            is_well = is_well && fcntl(i, F_GETFD) < 0;
        is_well = is_well && desk_close(desk) == 0;
        _exit(is_well ? 0 : 1);
    }
    WANT("the status", waitpid(child, &status, 0) == child && status == 0);
}

#define TEST(name) {#name, name}
static const struct {
    const char *name;
    void (*run)(void);
} tests[] = {
    TEST(lines_are_answered),
    TEST(refusals_are_numbers),
    TEST(texts_are_edited),
    TEST(what_has_no_answer_is_not_given),
    TEST(an_answer_may_be_the_next_line),
    TEST(the_screen_has_its_pixels),
    TEST(screens_of_all_sizes_are_whole),
    TEST(a_program_that_ends_is_told),
    TEST(what_is_no_answer_is_told),
    TEST(an_answer_may_come_in_parts),
    TEST(what_is_not_there_is_told),
    TEST(each_session_ends_by_itself),
    TEST(a_program_has_no_descriptor_of_another_session),
    TEST(threads_have_sessions_of_their_own),
    TEST(standard_descriptors_may_be_closed),
};

int main(int count, char **words)
{
    int passed = 0, failed = 0;
    if (count != 3)
        return 2;
    program = words[1];
    folder = words[2];
    /* a session that waits for ever is a failure too: the signal ends this program */
    alarm(120);
    for (size_t i = 0; i < sizeof tests / sizeof *tests; i++) {
        fault[0] = 0;
        tests[i].run();
        if (fault[0])
            printf("FAILED: %s: %s\n", tests[i].name, fault);
        failed += fault[0] != 0;
        passed += fault[0] == 0;
        fflush(stdout);
    }
    printf("%d passed, %d failed\n", passed, failed);
    return failed != 0;
}
