/*
 * What the parts of the baseline share: words of the image, standby, the checks.
 * The names of bytes and bits are those of stled325.h.
 */
#ifndef BASELINE_PANEL_H
#define BASELINE_PANEL_H

#include <string.h>

#include "baseline.h"
#include "stled325.h"

/* image.c */
int calendar_valid(const uint8_t *registers);
int image_valid(const uint8_t *image, size_t image_len);
unsigned watchdog_load(uint8_t watchdog);
void write_power_up(uint8_t *image);

static inline unsigned word_at(const uint8_t *image, size_t at)
{
    return image[at] | (unsigned)image[at + 1] << 8;
}

static inline void set_word(uint8_t *image, size_t at, unsigned word)
{
    image[at] = (uint8_t)word;
    image[at + 1] = (uint8_t)(word >> 8);
}

static inline int protocol_listed(uint8_t setup)
{
    unsigned protocol = setup & 0x70u;
    return protocol == STLED325_PROTOCOL_OFF || protocol == STLED325_PROTOCOL_RC5 ||
           protocol == STLED325_PROTOCOL_NEC;
}

/* The sixteenths that the guard value in a set-up byte stands for. */
static inline unsigned guard_load(uint8_t setup)
{
    return STLED325_TICKS_PER_SECOND * (setup & 0x0Fu);
}

static inline int in_standby(const uint8_t *image)
{
    return (image[STLED325_AT_PINS] & STLED325_PIN_STBY) != 0;
}

static inline void begin_standby(uint8_t *image)
{
    image[STLED325_AT_PINS] |= STLED325_PIN_STBY;
    set_word(image, STLED325_AT_GUARD_LEFT, 0);
}

static inline void end_standby(uint8_t *image)
{
    image[STLED325_AT_PINS] &= (uint8_t)~STLED325_PIN_STBY;
    set_word(image, STLED325_AT_GUARD_LEFT, guard_load(image[STLED325_AT_SETUP]));
}

/* Sets the interrupt bit of a source, given by its bit for STBY low, and ends standby. */
static inline void report(uint8_t *image, unsigned source)
{
    if (in_standby(image)) {
        image[STLED325_AT_INTERRUPT] |= (uint8_t)(source >> 4);
        end_standby(image);
    } else {
        image[STLED325_AT_INTERRUPT] |= (uint8_t)source;
    }
}

#endif
