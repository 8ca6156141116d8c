/* Keys, remote frames and the two pins. */
#include "panel.h"

uint32_t baseline_key_sample(uint8_t *image, size_t image_len, uint16_t sample)
{
    unsigned last, presses;

    if (!image_valid(image, image_len))
        return STLED325_BAD_IMAGE;
    last = word_at(image, STLED325_AT_LAST_SAMPLE);
    set_word(image, STLED325_AT_LAST_SAMPLE, sample);
    if (sample != last)
        return STLED325_ACCEPTED;
    presses = sample & ~word_at(image, STLED325_AT_ACCEPTED_KEYS);
    set_word(image, STLED325_AT_ACCEPTED_KEYS, sample);
    if (in_standby(image) && (image[STLED325_AT_CONFIGURATION] & STLED325_CFG_ALL_HOT) == 0)
        presses &= word_at(image, STLED325_AT_HOT_KEYS);
    if (presses != 0) {
        set_word(image, STLED325_AT_KEY_STORE, word_at(image, STLED325_AT_KEY_STORE) | presses);
        report(image, STLED325_INT_KEY);
    }
    return STLED325_ACCEPTED;
}

/* The command of a key for device address 0, or -1. */
static int key_in(uint8_t setup, uint32_t frame)
{
    unsigned command = frame >> 16 & 0xFFu;

    switch (setup & 0x70u) {
    case STLED325_PROTOCOL_NEC:
        return (frame & 0xFFFFu) == 0xFF00u && frame >> 24 == (~command & 0xFFu) ? (int)command : -1;
    case STLED325_PROTOCOL_RC5:
        return (frame & ~0x083Fu) == 0x3000u ? (int)(frame & 0x3Fu) : -1;
    default:
        return -1;
    }
}

uint32_t baseline_remote_frame(uint8_t *image, size_t image_len, uint32_t frame)
{
    int command;

    if (!image_valid(image, image_len))
        return STLED325_BAD_IMAGE;
    command = key_in(image[STLED325_AT_SETUP], frame);
    if (command < 0)
        return STLED325_NO_KEY;
    image[STLED325_AT_REMOTE_FRESH] = 1;
    image[STLED325_AT_REMOTE_ADDRESS] = 0;
    image[STLED325_AT_REMOTE_COMMAND] = (uint8_t)command;
    if (!in_standby(image) || (image[STLED325_AT_CONFIGURATION] & STLED325_CFG_REMOTE_WAKES) != 0)
        report(image, STLED325_INT_REMOTE);
    return STLED325_ACCEPTED;
}

uint32_t baseline_ready(uint8_t *image, size_t image_len, uint32_t level)
{
    int was_high;

    if (!image_valid(image, image_len))
        return STLED325_BAD_IMAGE;
    was_high = (image[STLED325_AT_PINS] & STLED325_PIN_READY) != 0;
    if (level != 0 && !was_high) {
        image[STLED325_AT_PINS] |= STLED325_PIN_READY;
        set_word(image, STLED325_AT_GUARD_LEFT, 0);
    } else if (level == 0 && was_high) {
        image[STLED325_AT_PINS] &= (uint8_t)~STLED325_PIN_READY;
        begin_standby(image);
    }
    return STLED325_ACCEPTED;
}

uint32_t baseline_wake_up(uint8_t *image, size_t image_len, uint32_t level)
{
    int was_high;

    if (!image_valid(image, image_len))
        return STLED325_BAD_IMAGE;
    was_high = (image[STLED325_AT_PINS] & STLED325_PIN_WAKE_UP) != 0;
    if (level == 0) {
        image[STLED325_AT_PINS] &= (uint8_t)~STLED325_PIN_WAKE_UP;
    } else if (!was_high) {
        image[STLED325_AT_PINS] |= STLED325_PIN_WAKE_UP;
        if ((image[STLED325_AT_CONFIGURATION] & STLED325_CFG_WAKE_UP_COUNTS) != 0)
            report(image, STLED325_INT_WAKE_UP);
    }
    return STLED325_ACCEPTED;
}
