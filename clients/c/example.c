/* example.c: a desk of 8 by 8 pixels, what it answers to some lines, and its screen. The first word of the command line names
 * the program; without it, it is the desk on the PATH. To compile it, type: cc -o example example.c desk.c */
#include "desk.h"

#include <stdio.h>

int main(int count, char **words)
{
    static const char *const lines[] = {
        "desk 8 8 0",
        "window plain 1 1 6 6 1 0 \"\"",
        "draw 1 fill 2 2 4 4 patCopy black",
        "find 4 4",
        "close 2",
    };
    uint8_t pixels[64];
    const char *answer;
    int width, height, status;

    desk_session *desk = desk_open(count > 1 ? words[1] : "desk", NULL);
    if (desk == NULL) {
        perror("desk_open");
        return 1;
    }
    for (size_t i = 0; i < sizeof lines / sizeof *lines; i++) {
        status = desk_call(desk, lines[i], &answer, NULL);
        printf("%d %s\n", status, answer);
    }
    status = desk_pixels(desk, pixels, sizeof pixels, &width, &height);
    for (int i = 0; status == DESK_OK && i < width * height; i++) {
        putchar(pixels[i] ? '#' : '.');
        if ((i + 1) % width == 0)
            putchar('\n');
    }
    return desk_close(desk) == 0 && status == DESK_OK ? 0 : 1;
}
