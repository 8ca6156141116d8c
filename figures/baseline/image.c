/* The image: when it is valid, and what power-up writes. */
#include "calendar.h"

/* True if a byte is BCD and from the lowest to the highest; the highest has no nibble above 9. */
static int bcd_between(unsigned byte, unsigned lowest, unsigned highest)
{
    return (byte & 0x0Fu) <= 9 && lowest <= byte && byte <= highest;
}

int calendar_valid(const uint8_t *registers)
{
    unsigned date = registers[STLED325_REG_DATE];
    unsigned month = registers[STLED325_REG_MONTH] & 0x1Fu;
    unsigned year = registers[STLED325_REG_YEAR];
    unsigned weekday = registers[STLED325_REG_WEEKDAY];

    return bcd_between(registers[STLED325_REG_SECONDS] & 0x7Fu, 0x00, 0x59) &&
           bcd_between(registers[STLED325_REG_MINUTES], 0x00, 0x59) &&
           bcd_between(registers[STLED325_REG_HOURS] & 0x3Fu, 0x00, 0x23) &&
           weekday >= 1 && weekday <= 7 &&
           bcd_between(month, 0x01, 0x12) &&
           bcd_between(year, 0x00, 0x99) &&
           bcd_between(date, 0x01, last_date(month, year));
}

static int reserved_clear(const uint8_t *registers)
{
    return (registers[STLED325_REG_RESERVED] |
            (registers[STLED325_REG_MINUTES] & 0x80) |
            (registers[STLED325_REG_WEEKDAY] & 0xF8) |
            (registers[STLED325_REG_DATE] & 0xC0) |
            (registers[STLED325_REG_MONTH] & 0x20) |
            (registers[STLED325_REG_CALIBRATION] & 0x40) |
            (registers[STLED325_REG_ALARM_MONTH] & 0x40) |
            (registers[STLED325_REG_ALARM_WEEKDAY] & 0x0F)) == 0;
}

/* The sixteenths that register 09h loads; 0 is off. */
unsigned watchdog_load(uint8_t watchdog)
{
    static const uint16_t resolution[8] = {1, 4, 16, 64, 960, 0, 0, 0};
    unsigned rb = (watchdog & STLED325_RB2) >> 5 | (watchdog & (STLED325_RB1 | STLED325_RB0));

    return ((watchdog & STLED325_BMB) >> 2) * resolution[rb];
}

static int timers_valid(const uint8_t *image)
{
    unsigned guard = word_at(image, STLED325_AT_GUARD_LEFT);

    return guard <= guard_load(image[STLED325_AT_SETUP]) &&
           (guard == 0 || !in_standby(image)) &&
           word_at(image, STLED325_AT_WATCHDOG_LEFT) <= watchdog_load(image[STLED325_REG_WATCHDOG]);
}

static int fields_valid(const uint8_t *image)
{
    return image[STLED325_AT_SIXTEENTHS] < STLED325_TICKS_PER_SECOND &&
           image[STLED325_AT_FLAGS] < 0x04 &&
           image[STLED325_AT_PINS] < 0x08 &&
           (image[STLED325_AT_CONFIGURATION] & 0xD0) == 0 &&
           (image[STLED325_AT_SETUP] & 0x80) == 0 &&
           protocol_listed(image[STLED325_AT_SETUP]) &&
           image[STLED325_AT_REMOTE_FRESH] <= 1 &&
           image[STLED325_AT_REMOTE_ADDRESS] == 0 &&
           (image[STLED325_AT_REMOTE_FRESH] == 1 || image[STLED325_AT_REMOTE_COMMAND] == 0) &&
           image[STLED325_AT_DIGITS] >= 1 && image[STLED325_AT_DIGITS] <= 5 &&
           image[STLED325_AT_DISPLAY_CONTROL] < 0x20;
}

static int unused_clear(const uint8_t *image)
{
    static const uint8_t zeros[STLED325_IMAGE_LEN - STLED325_AT_UNUSED];

    return memcmp(image + STLED325_AT_UNUSED, zeros, sizeof zeros) == 0;
}

int image_valid(const uint8_t *image, size_t image_len)
{
    return image_len == STLED325_IMAGE_LEN && calendar_valid(image) && reserved_clear(image) &&
           fields_valid(image) && timers_valid(image) && unused_clear(image);
}

void write_power_up(uint8_t *image)
{
    memset(image, 0, STLED325_IMAGE_LEN);
    image[STLED325_REG_WEEKDAY] = 0x07;
    image[STLED325_REG_DATE] = 0x01;
    image[STLED325_REG_MONTH] = 0x01;
    image[STLED325_AT_CONFIGURATION] = 0x01;
    image[STLED325_AT_SETUP] = 0x0A;
    set_word(image, STLED325_AT_GUARD_LEFT, 160);
    image[STLED325_AT_DIGITS] = 5;
}

uint32_t baseline_power_up(uint8_t *image, size_t image_len)
{
    if (image_len != STLED325_IMAGE_LEN)
        return STLED325_BAD_IMAGE;
    write_power_up(image);
    return STLED325_ACCEPTED;
}
