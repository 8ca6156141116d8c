/* The calls that are timed, each with the state it is made in. */
#ifndef FIGURES_SCENES_H
#define FIGURES_SCENES_H

#include "calls.h"
#include "stled325.h"

struct scene {
    const char *what;
    void (*prepare)(uint8_t *image);
    struct call call;
    uint32_t answer;
};

#define MOST_SCENES 64

extern const struct scene scenes[];
extern const size_t scene_count;

/* The longest cut, with an alarm at 07:30:00 of every day and with one on 30 February. */
extern const struct scene daily_cut;
extern const struct scene never_cut;

#endif
