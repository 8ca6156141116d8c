/* What is seen from outside: the digits and the lines. */
#include "calendar.h"

/* The segments of a BCD nibble. */
static uint8_t segments(unsigned nibble)
{
    static const uint8_t font[16] = {
        0x3F, 0x06, 0x5B, 0x4F, 0x66, 0x6D, 0x7D, 0x07, 0x7F, 0x6F, 0x40, 0x40, 0x40, 0x40, 0x40, 0x40,
    };
    return font[nibble];
}

static void show_pair(uint8_t *digits, unsigned byte)
{
    digits[0] = segments(byte >> 4);
    digits[1] = segments(byte & 0x0Fu);
}

/* Hours 1 to 12, a leading zero blank. */
static void show_twelve_hours(uint8_t *digits, unsigned byte)
{
    unsigned hour = from_bcd(byte) % 12;

    if (hour == 0)
        hour = 12;
    show_pair(digits, to_bcd(hour));
    if (hour < 10)
        digits[0] = 0;
}

static void show_clock(const uint8_t *registers, uint8_t *digits)
{
    unsigned hours = registers[STLED325_REG_HOURS];

    if ((hours & STLED325_MD_H) != 0) {
        show_pair(digits, registers[STLED325_REG_MONTH] & 0x1Fu);
        show_pair(digits + 2, registers[STLED325_REG_DATE]);
    } else if ((hours & STLED325_M_MS) != 0) {
        show_pair(digits, registers[STLED325_REG_MINUTES]);
        show_pair(digits + 2, registers[STLED325_REG_SECONDS] & 0x7Fu);
    } else {
        if ((registers[STLED325_REG_CALIBRATION] & STLED325_TWELVE_HOURS) != 0)
            show_twelve_hours(digits, hours & 0x3Fu);
        else
            show_pair(digits, hours & 0x3Fu);
        show_pair(digits + 2, registers[STLED325_REG_MINUTES]);
    }
    digits[1] |= STLED325_POINT;
    digits[4] = 0;
}

uint32_t baseline_show(const uint8_t *image, size_t image_len, uint8_t *digits, size_t digits_len)
{
    int face, used;

    if (!image_valid(image, image_len))
        return STLED325_BAD_IMAGE;
    if (digits_len != STLED325_DIGITS_LEN)
        return STLED325_BAD_BUFFER;
    face = (image[STLED325_AT_CONFIGURATION] & STLED325_CFG_CLOCK_FACE) != 0;
    used = image[STLED325_AT_DIGITS];
    if ((image[STLED325_AT_DISPLAY_CONTROL] & STLED325_DISPLAY_ON) == 0 || (in_standby(image) && !face)) {
        memset(digits, 0, STLED325_DIGITS_LEN);
    } else if (face && used >= 4) {
        show_clock(image, digits);
    } else {
        memset(digits, 0, STLED325_DIGITS_LEN);
        memcpy(digits, image + STLED325_AT_DIGIT_BYTES, (size_t)used);
    }
    return STLED325_ACCEPTED;
}

uint32_t baseline_lines(const uint8_t *image, size_t image_len, uint8_t *lines, size_t lines_len)
{
    int ready;
    unsigned asserted = 0;

    if (!image_valid(image, image_len))
        return STLED325_BAD_IMAGE;
    if (lines_len != STLED325_LINES_LEN)
        return STLED325_BAD_BUFFER;
    ready = (image[STLED325_AT_PINS] & STLED325_PIN_READY) != 0;
    if (in_standby(image))
        asserted |= STLED325_LINE_STBY;
    else if (ready && image[STLED325_AT_INTERRUPT] != 0)
        asserted |= STLED325_LINE_IRQ;
    if (!ready)
        asserted |= STLED325_LINE_MUTE;
    *lines = (uint8_t)asserted;
    return STLED325_ACCEPTED;
}
