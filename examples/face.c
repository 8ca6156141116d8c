/* The panel's front in a terminal; see face.h. */
#define _POSIX_C_SOURCE 200112L /* isatty and nanosleep */

#include "face.h"

#include <stdio.h>
#include <stdlib.h>
#include <string.h>
#include <time.h>
#include <unistd.h>

/* A terminal that knows colours, and nobody who asks for none. */
static int shows_colours(void)
{
    const char *none = getenv("NO_COLOR"), *term = getenv("TERM");

    return isatty(STDOUT_FILENO) && (none == NULL || *none == '\0')
        && term != NULL && strcmp(term, "dumb") != 0;
}

const char *ink(enum ink wanted)
{
    static const char *const codes[] = { "\033[0m", "\033[1m", "\033[1;31m", "\033[1;33m" };

    return shows_colours() ? codes[wanted] : "";
}

/* One of the three text rows of a digit: three columns, then the point's. */
static void draw_row(uint8_t segments, int row)
{
    static const struct { uint8_t left, middle, right; } rows[3] = {
        { 0x00, 0x01, 0x00 }, /*    a    */
        { 0x20, 0x40, 0x02 }, /* f  g  b */
        { 0x10, 0x08, 0x04 }  /* e  d  c */
    };
    putchar(segments & rows[row].left ? '|' : ' ');
    putchar(segments & rows[row].middle ? '_' : ' ');
    putchar(segments & rows[row].right ? '|' : ' ');
    putchar(row == 2 && (segments & STLED325_POINT) ? '.' : ' ');
}

static void wait_for(double seconds)
{
    struct timespec rest;

    rest.tv_sec = (time_t)seconds;
    rest.tv_nsec = (long)((seconds - (double)rest.tv_sec) * 1e9);
    nanosleep(&rest, NULL);
}

void draw_face(const uint8_t digits[STLED325_DIGITS_LEN], uint8_t lines, double seconds)
{
    static const char *const names[3] = { "STBY", "MUTE", "IRQ " };
    static const uint8_t bits[3] = {
        STLED325_LINE_STBY, STLED325_LINE_MUTE, STLED325_LINE_IRQ
    };
    int row, digit;

    printf("    .---------------------------.\n");
    for (row = 0; row < 3; row++) {
        printf("    |  %s", ink(RED));
        for (digit = 0; digit < STLED325_DIGITS_LEN; digit++) {
            draw_row(digits[digit], row);
            putchar(' ');
        }
        printf("%s|   %s ", ink(PLAIN), names[row]);
        if (lines & bits[row])
            printf("%s(*)%s\n", ink(AMBER), ink(PLAIN));
        else
            printf("( )\n");
    }
    printf("    '---------------------------'\n\n");
    fflush(stdout);
    if (seconds > 0)
        wait_for(seconds);
}
