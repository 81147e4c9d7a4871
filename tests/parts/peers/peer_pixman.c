/* peer_pixman WORD ROUNDS: makes a shape of ground_bench so many times by pixman, and prints a checksum of its last pixels.

   oval           the oval of 200 by 120, as 32 trapezoids between the 64 points of a polygon, put into an image of one bit
   polygon        the star of twelve points, as trapezoids between the rows of its points, put into such an image
   oval-region    the oval likewise, and the region of that image
   polygon-region the star likewise
   rows-region    the region of the oval's rows, which are known: a rectangle each

   An image is made white before each round. */

#include <math.h>
#include <pixman.h>
#include <stdint.h>
#include <stdio.h>
#include <stdlib.h>
#include <string.h>

enum { WIDTH = 320, HEIGHT = 240, MOST = 64, SIDES = 64 };
enum { LEFT = 40, TOP = 30, RIGHT = 240, BOTTOM = 150 };

typedef struct { double h, v; } Point;

static const Point STAR[] = {
    {150, 20}, {175, 76}, {236, 70}, {200, 120}, {236, 170}, {175, 164},
    {150, 220}, {125, 164}, {64, 170}, {100, 120}, {64, 70}, {125, 76},
};

static pixman_trapezoid_t traps[MOST * 4];
static int count;

static pixman_line_fixed_t line_of(Point from, Point to) {
    return (pixman_line_fixed_t){
        {pixman_double_to_fixed(from.h), pixman_double_to_fixed(from.v)},
        {pixman_double_to_fixed(to.h), pixman_double_to_fixed(to.v)},
    };
}

static int by_value(const void *one, const void *other) {
    double a = *(const double *)one, b = *(const double *)other;
    return (a > b) - (a < b);
}

static double at_row(Point from, Point to, double v) {
    return from.h + (to.h - from.h) * (v - from.v) / (to.v - from.v);
}

/* An edge of a polygon, its upper end first. */
typedef struct { Point from, to; double middle; } Edge;

static int by_middle(const void *one, const void *other) {
    return by_value(&((const Edge *)one)->middle, &((const Edge *)other)->middle);
}

/* The trapezoids of a polygon whose edges do not cross, between each two rows that have points. */
static void cut(const Point *points, int n) {
    double rows[MOST];
    for (int i = 0; i < n; i++) { rows[i] = points[i].v; }
    qsort(rows, n, sizeof *rows, by_value);
    for (int row = 0; row + 1 < n; row++) {
        double top = rows[row], bottom = rows[row + 1], middle = (top + bottom) / 2;
        if (bottom - top < 1e-6) { continue; }
        Edge edges[MOST];
        int found = 0;
        for (int i = 0; i < n; i++) {
            Point from = points[i], to = points[(i + 1) % n];
            if (from.v > to.v) { Point it = from; from = to; to = it; }
            if (from.v < middle && middle < to.v) { edges[found++] = (Edge){from, to, at_row(from, to, middle)}; }
        }
        qsort(edges, found, sizeof *edges, by_middle);
        for (int i = 0; i + 1 < found; i += 2) {
            traps[count++] = (pixman_trapezoid_t){
                pixman_double_to_fixed(top), pixman_double_to_fixed(bottom),
                line_of(edges[i].from, edges[i].to), line_of(edges[i + 1].from, edges[i + 1].to),
            };
        }
    }
}

static void cut_oval(void) {
    Point points[SIDES];
    for (int i = 0; i < SIDES; i++) {
        double angle = 2 * M_PI * i / SIDES;
        points[i] = (Point){(LEFT + RIGHT) / 2.0 + (RIGHT - LEFT) / 2.0 * sin(angle),
                            (TOP + BOTTOM) / 2.0 - (BOTTOM - TOP) / 2.0 * cos(angle)};
    }
    cut(points, SIDES);
}

/* The rows of the oval, by the rule of docs/SHAPES.md. */
static int rows_of_oval(pixman_box32_t *boxes) {
    int64_t w = RIGHT - LEFT, k = BOTTOM - TOP;
    int found = 0;
    for (int v = TOP; v < BOTTOM; v++) {
        int64_t y = llabs(2 * (v - TOP) + 1 - k);
        int h = LEFT;
        while (h < (LEFT + RIGHT) / 2) {
            int64_t x = llabs(2 * (h - LEFT) + 1 - w);
            if (x * k * x * k + y * w * y * w <= w * k * w * k) { break; }
            h++;
        }
        if (h < LEFT + RIGHT - h) { boxes[found++] = (pixman_box32_t){h, v, LEFT + RIGHT - h, v + 1}; }
    }
    return found;
}

int main(int n, char **words) {
    if (n != 3) { fputs("usage: peer_pixman WORD ROUNDS\n", stderr); return 2; }
    long rounds = atol(words[2]);
    int is_region = strstr(words[1], "-region") != NULL, are_rows = !strcmp(words[1], "rows-region");
    static pixman_box32_t boxes[BOTTOM - TOP];
    int rows = rows_of_oval(boxes);
    if (!strncmp(words[1], "oval", 4)) { cut_oval(); }
    if (!strncmp(words[1], "polygon", 7)) { cut(STAR, 12); }
    pixman_image_t *image = pixman_image_create_bits(PIXMAN_a1, WIDTH, HEIGHT, NULL, 0);
    uint32_t *bits = pixman_image_get_data(image), sum = 0;
    int bytes = pixman_image_get_stride(image) * HEIGHT;
    for (long round = 0; round < rounds; round++) {
        pixman_region32_t region;
        if (!are_rows) {
            memset(bits, 0, bytes);
            for (int i = 0; i < count; i++) { pixman_rasterize_trapezoid(image, &traps[i], 0, 0); }
        }
        if (are_rows) {
            pixman_region32_init_rects(&region, boxes, rows);
        } else if (is_region) {
            pixman_region32_init_from_image(&region, image);
        }
        if (is_region) {
            sum = (uint32_t)pixman_region32_n_rects(&region);
            pixman_region32_fini(&region);
        }
    }
    for (int i = 0; i < bytes / 4; i++) { sum = 31 * sum + (uint32_t)__builtin_popcount(bits[i]); }
    printf("%s %d trapezoids %u\n", words[1], count, sum);
    return 0;
}
