/* Random images and calls; every run draws the same ones. */
#ifndef FIGURES_DRAW_H
#define FIGURES_DRAW_H

#include "calls.h"

/* A number from 0 to limit - 1. */
uint32_t below(uint32_t limit);

/* True once in so many times on average. */
int once_in(uint32_t times);

/* Any valid image, often one at which something is about to happen. */
void random_image(uint8_t *image);

/* Any call, drawn to suit the image. */
void random_call(struct call *call, const uint8_t *image);

#endif
