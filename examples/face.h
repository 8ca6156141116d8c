/*
 * face.h - the panel's front in a terminal: digits of seven segments, a lamp for
 * each line, and colours where the terminal shows them.
 */
#ifndef FACE_H
#define FACE_H

#include "stled325.h"

enum ink { PLAIN, BOLD, RED, AMBER };

/* What switches the terminal to an ink; nothing where it shows no colours. */
const char *ink(enum ink wanted);

/* Draws what show and lines have written, and waits so long to let it be seen. */
void draw_face(const uint8_t digits[STLED325_DIGITS_LEN], uint8_t lines, double seconds);

#endif
