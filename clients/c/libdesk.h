/* libdesk.h: a desk inside a program in C, by the static library libdesk.a, which tools/library makes. docs/SCRIPT.md has the lines
 * of a script and what is answered. It needs Linux on x86-64, and a C11 compiler that links with libdesk.a; C++ may include it.
 *
 * A call makes a desk, answers a script as the program desk does, with the built-in font, and keeps nothing: there is no global
 * variable, no thread and no other file. Calls in several threads know nothing of each other.
 *
 * What is proved of the library (crates/desk_c/README.md) holds of a call whose caller keeps to this:
 * - A pointer points to as many bytes as its length says, fewer than 2^63. It is not NULL, also where the length is 0.
 * - What the pointers of a call point to does not overlap, and nobody else reads or writes it while the call runs.
 * - malloc, realloc and free belong together, as those of the C library do.
 * - 1 MB of stack is left.
 * - No handler of a signal calls, and no process that was forked off one with several threads. */
#ifndef LIBDESK_H
#define LIBDESK_H

#include <stdbool.h>
#include <stddef.h>
#include <stdint.h>

#ifdef __cplusplus
extern "C" {
#endif

/* What a call gives. Above 0 it is the number of what stopped the run: the answers up to then are written. */
enum {
    LIBDESK_DONE = 0,         /* each line was answered */
    LIBDESK_EXCLUDED = -1,    /* nothing was run: raw and check exclude each other */
    LIBDESK_NO_MEMORY = 1,    /* there was no memory for the run, or for the desk that a line was to make */
    LIBDESK_READ_FAULT = 18,  /* a script has more than 1,000,000 pieces, which are 4,096 bytes in desk_run, lines in desk_serve */
    LIBDESK_WRITE_FAULT = 19  /* there was no room for all answers, or the output takes no more */
};

/* Answers the script in script[0 .. length): the answers are out[0 .. *written), and the bytes of out behind them stay. Where
 * the room is too small that is LIBDESK_WRITE_FAULT, and what is written are the first 'capacity' bytes. It takes as much memory
 * again as the room has. With 'raw' nothing is written but the images, in the format P4. With 'check' a last line says how many
 * pixels differ from the desk painted from nothing. */
int32_t desk_run(const uint8_t *script, size_t length, uint8_t *out, size_t capacity, size_t *written, bool raw, bool check);

/* Answers the script that comes in at the descriptor 'input', at 'output', until the input ends: a desk that stays while a thread of
 * the caller's is in this call. A line is answered as soon as its newline is there, and no further byte is read before that. Neither descriptor
 * is closed, and both have to wait: O_NONBLOCK ends the script. So does a signal whose handler interrupts a read; one that
 * interrupts a write is LIBDESK_WRITE_FAULT. A write to a pipe or a socket that nobody reads any more raises SIGPIPE, as write
 * does; where that is ignored, it is LIBDESK_WRITE_FAULT. */
int32_t desk_serve(int32_t input, int32_t output, bool raw, bool check);

#ifdef __cplusplus
}
#endif

#endif
