/* The ten calls as data, so that one call can be made to the archive and to the baseline in C. */
#ifndef FIGURES_CALLS_H
#define FIGURES_CALLS_H

#include <stddef.h>
#include <stdint.h>

enum kind {
    POWER_UP,
    TICK,
    COMMAND,
    KEY_SAMPLE,
    REMOTE_FRAME,
    READY,
    WAKE_UP,
    SUPPLY_RETURN,
    SHOW,
    LINES,
    KINDS
};

#define MOST_BYTES 24

struct call {
    enum kind kind;
    size_t image_len;
    uint32_t number;            /* sample, frame, level or seconds */
    uint8_t bytes[MOST_BYTES];  /* of a command */
    size_t bytes_len;
    size_t out_len;
};

struct side {
    uint32_t (*power_up)(uint8_t *, size_t);
    uint32_t (*tick)(uint8_t *, size_t);
    uint32_t (*command)(uint8_t *, size_t, const uint8_t *, size_t, uint8_t *, size_t);
    uint32_t (*key_sample)(uint8_t *, size_t, uint16_t);
    uint32_t (*remote_frame)(uint8_t *, size_t, uint32_t);
    uint32_t (*ready)(uint8_t *, size_t, uint32_t);
    uint32_t (*wake_up)(uint8_t *, size_t, uint32_t);
    uint32_t (*supply_return)(uint8_t *, size_t, uint32_t);
    uint32_t (*show)(const uint8_t *, size_t, uint8_t *, size_t);
    uint32_t (*lines)(const uint8_t *, size_t, uint8_t *, size_t);
};

extern const struct side archive;
extern const struct side baseline;

/* A tick that does nothing, to time the loop around a call. */
extern const struct side nothing;

/* The name of the exported call. */
const char *kind_name(enum kind kind);

/* Makes the call on so many images that lie one behind the other; returns the last number. */
uint32_t make_calls(const struct side *side, const struct call *call, uint8_t *image, size_t count, uint8_t *out);

/* agree.c: makes random calls to archive and baseline; true if all answers are equal. */
int check_agreement(unsigned long calls);

#endif
