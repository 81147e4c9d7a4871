/* Times calls from C, for the program calls beside this file: the words of the command line are the program desk, how many
 * rounds there are, how many calls in each, and the line. It prints the seconds of each round, a line each. */
#define _POSIX_C_SOURCE 200809L
#include "desk.h"

#include <stdint.h>
#include <stdio.h>
#include <stdlib.h>
#include <string.h>
#include <time.h>

static double now(void)
{
    struct timespec time;
    clock_gettime(CLOCK_MONOTONIC, &time);
    return (double)time.tv_sec + (double)time.tv_nsec / 1e9;
}

int main(int count, char **words)
{
    static uint8_t pixels[512 * 342];
    int width, height;
    if (count != 5)
        return 2;
    desk_session *desk = desk_open(words[1], NULL);
    if (desk == NULL || desk_call(desk, "desk 512 342 20", NULL, NULL)
        || desk_call(desk, "window document 40 60 200 120 1 1 \"A\"", NULL, NULL))
        return 1;
    int is_image = strcmp(words[4], "image") == 0;
    for (int round = atoi(words[2]); round > 0; round--) {
        double began = now();
        for (int i = atoi(words[3]); i > 0; i--)
            if (is_image ? desk_pixels(desk, pixels, sizeof pixels, &width, &height) : desk_call(desk, words[4], NULL, NULL))
                return 1;
        printf("%.9f\n", now() - began);
    }
    return desk_close(desk);
}
