/* peer_x WORD ROUNDS: makes a shape of ground_bench so many times by X, and prints what came of the last one.

   The server draws, in a pixmap of one bit that the display DISPLAY has:
   oval       the oval of 200 by 120, filled with one color
   disk       the same, filled with a gray pattern of 8 by 8
   ring       its frame, by a pen of 2
   line       a line of 300 by 200, as thin as it gets
   polygon    the star of twelve points, filled with one color

   The library makes, without a display:
   polygon-region   the region of the star */

#include <X11/Xlib.h>
#include <X11/Xutil.h>
#include <stdio.h>
#include <stdlib.h>
#include <string.h>

enum { WIDTH = 320, HEIGHT = 240 };
enum { LEFT = 40, TOP = 30, ACROSS = 200, DOWN = 120 };

static XPoint star[] = {
    {150, 20}, {175, 76}, {236, 70}, {200, 120}, {236, 170}, {175, 164},
    {150, 220}, {125, 164}, {64, 170}, {100, 120}, {64, 70}, {125, 76},
};

static int make_regions(long rounds) {
    Region region = XPolygonRegion(star, 12, EvenOddRule);
    for (long round = 1; round < rounds; round++) {
        XDestroyRegion(region);
        region = XPolygonRegion(star, 12, EvenOddRule);
    }
    int pixels = 0;
    for (int v = 0; v < HEIGHT; v++) {
        for (int h = 0; h < WIDTH; h++) { pixels += XPointInRegion(region, h, v) != 0; }
    }
    printf("polygon-region %d pixels\n", pixels);
    return 0;
}

static void draw(Display *display, Pixmap map, GC gc, const char *word) {
    if (!strcmp(word, "oval") || !strcmp(word, "disk")) {
        XFillArc(display, map, gc, LEFT, TOP, ACROSS, DOWN, 0, 360 * 64);
    } else if (!strcmp(word, "ring")) {
        XDrawArc(display, map, gc, LEFT + 1, TOP + 1, ACROSS - 2, DOWN - 2, 0, 360 * 64);
    } else if (!strcmp(word, "line")) {
        XDrawLine(display, map, gc, 10, 10, 310, 210);
    } else if (!strcmp(word, "polygon")) {
        XFillPolygon(display, map, gc, star, 12, Nonconvex, CoordModeOrigin);
    }
}

int main(int n, char **words) {
    if (n != 3) { fputs("usage: peer_x WORD ROUNDS\n", stderr); return 2; }
    long rounds = atol(words[2]);
    if (!strcmp(words[1], "polygon-region")) { return make_regions(rounds); }
    Display *display = XOpenDisplay(NULL);
    if (!display) { fputs("peer_x: there is no display\n", stderr); return 1; }
    Pixmap map = XCreatePixmap(display, DefaultRootWindow(display), WIDTH, HEIGHT, 1);
    GC gc = XCreateGC(display, map, 0, NULL);
    XSetForeground(display, gc, 0);
    XFillRectangle(display, map, gc, 0, 0, WIDTH, HEIGHT);
    XSetForeground(display, gc, 1);
    if (!strcmp(words[1], "disk")) {
        static char gray[] = {0x55, 0x2a | 0x80, 0x55, 0x2a | 0x80, 0x55, 0x2a | 0x80, 0x55, 0x2a | 0x80};
        XSetTile(display, gc, XCreateBitmapFromData(display, map, gray, 8, 8));
        XSetFillStyle(display, gc, FillTiled);
    }
    XSetLineAttributes(display, gc, strcmp(words[1], "ring") ? 0 : 2, LineSolid, CapButt, JoinMiter);
    for (long round = 0; round < rounds; round++) { draw(display, map, gc, words[1]); }
    XImage *image = XGetImage(display, map, 0, 0, WIDTH, HEIGHT, 1, XYPixmap);
    int pixels = 0;
    for (int v = 0; v < HEIGHT; v++) {
        for (int h = 0; h < WIDTH; h++) { pixels += XGetPixel(image, h, v) != 0; }
    }
    printf("%s %d pixels\n", words[1], pixels);
    XDestroyImage(image);
    XCloseDisplay(display);
    return 0;
}
