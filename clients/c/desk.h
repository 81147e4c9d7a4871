/* desk.h: a desk for programs in C. desk.c beside it starts the program desk, gives it lines and reads its answers.
 * docs/SCRIPT.md has the lines and what is answered. desk.c is all there is to compile; it needs Linux and a C11 compiler.
 *
 * A session is one desk, and is used by one thread at a time. Sessions know nothing of each other, and there is nothing
 * besides them: no global variable, no thread, no signal. What the program writes on standard error goes to the caller's. */
#ifndef DESK_H
#define DESK_H

#include <stddef.h>
#include <stdint.h>

#ifdef __cplusplus
extern "C" {
#endif

typedef struct desk_session desk_session;

/* What a call gives. Above 0 it is the number of a refusal in docs/SCRIPT.md, 1 to 21, and the desk is as it was before. */
enum {
    DESK_OK = 0,
    DESK_ENDED = -1,     /* the program has ended; the session can only be closed */
    DESK_STRANGE = -2,   /* what came is no answer of a desk; the session can only be closed */
    DESK_NO_MEMORY = -3, /* there was no memory for the answer here; the session can only be closed */
    DESK_BAD_LINE = -4,  /* the line was not given: it would not be answered, or is more than one */
    DESK_NO_ROOM = -5    /* the screen has more pixels than there is room for */
};

/* Starts the program of this path, or of this name on the PATH, with the font in this file or, where that is NULL, with the
 * built-in one. NULL: there is no session, and errno says why. Where the font is none the program ends by itself: calls give
 * DESK_ENDED, and desk_close 1. */
desk_session *desk_open(const char *program, const char *font);

/* Gives a line, without its newline, and waits for its answer. *answer is the answer without its last newline, as "ok",
 * "ok 3 1", "refused 2 NoSuchWindow" or an image, and *length how many bytes it has; a zero byte stands behind them. It stays
 * until the next call of this session. Below 0 it is "". Either pointer may be NULL. A line that is empty, a comment, or has a
 * newline in it is DESK_BAD_LINE. */
int desk_call(desk_session *session, const char *line, const char **answer, size_t *length);

/* Gives the screen, a byte a pixel, 1 for black and 0 for white, row by row from the top, into pixels[0 .. capacity), and its
 * sides. With DESK_NO_ROOM the sides say how much is wanted, and no pixel is given; with what else is not 0 they are 0. */
int desk_pixels(desk_session *session, uint8_t *pixels, size_t capacity, int *width, int *height);

/* Ends the program, waits until it has ended, and gives the session back. What it gives is the program's status, 0 where all
 * went well; 128 and the number of a signal where one ended it; or DESK_ENDED where that is not known. NULL gives 0. */
int desk_close(desk_session *session);

#ifdef __cplusplus
}
#endif

#endif
