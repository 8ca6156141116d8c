/* Supply return: the clock and the alarm over the days of a cut. */
#include "alarm.h"

#define DAY 86400u

static uint32_t time_in(const uint8_t *registers)
{
    return 3600 * from_bcd(registers[STLED325_REG_HOURS] & 0x3Fu) +
           60 * from_bcd(registers[STLED325_REG_MINUTES]) +
           from_bcd(registers[STLED325_REG_SECONDS]);
}

static void write_time(uint8_t *registers, uint32_t time)
{
    unsigned face = registers[STLED325_REG_HOURS] & 0xC0u;

    registers[STLED325_REG_HOURS] = (uint8_t)(face | to_bcd(time / 3600));
    registers[STLED325_REG_MINUTES] = (uint8_t)to_bcd(time / 60 % 60);
    registers[STLED325_REG_SECONDS] = (uint8_t)to_bcd(time % 60);
}

/* The number in an alarm byte, or a number that no clock has if it is no BCD. */
static unsigned alarm_number(unsigned byte)
{
    return (byte & 0x0Fu) <= 9 && byte < 0x9Au ? from_bcd(byte) : 99;
}

/* The first second of the day from a time on that fits the alarm's time, or DAY. */
static uint32_t first_fit(const uint8_t *registers, uint32_t time)
{
    int any_hour = (registers[STLED325_REG_ALARM_HOUR] & STLED325_RPT3) != 0;
    int any_minute = (registers[STLED325_REG_ALARM_MINUTE] & STLED325_RPT2) != 0;
    int any_second = (registers[STLED325_REG_ALARM_SECOND] & STLED325_RPT1) != 0;
    unsigned hour = alarm_number(registers[STLED325_REG_ALARM_HOUR] & 0x3Fu);
    unsigned minute = alarm_number(registers[STLED325_REG_ALARM_MINUTE] & 0x7Fu);
    unsigned second = alarm_number(registers[STLED325_REG_ALARM_SECOND] & 0x7Fu);

    while (time < DAY) {
        if (!any_hour && time / 3600 != hour)
            time = (time / 3600 + 1) * 3600;
        else if (!any_minute && time / 60 % 60 != minute)
            time = (time / 60 + 1) * 60;
        else if (!any_second && time % 60 != second)
            time++;
        else
            return time;
    }
    return DAY;
}

/* True if one of the seconds of a day from the first to the last fits the alarm's time. */
static int fits_between(const uint8_t *registers, uint32_t first, uint32_t last)
{
    uint32_t fit = first_fit(registers, first);

    return fit < DAY && fit <= last;
}

/* Moves the clock on by n seconds; true if one of the seconds reached matches and counts. */
static int move_on(uint8_t *registers, uint32_t n)
{
    const unsigned enabled = STLED325_AFE | STLED325_ABE;
    int counts = (registers[STLED325_REG_ALARM_MONTH] & enabled) == enabled;
    struct day day = day_in(registers);
    uint32_t start = time_in(registers);
    uint32_t last = start + n;
    int matched = counts && day_fits(registers, day) && fits_between(registers, start + 1, last);

    while (last >= DAY) {
        last -= DAY;
        day = next_day(day);
        if (counts && !matched && day_fits(registers, day))
            matched = fits_between(registers, 0, last);
    }
    write_day(registers, day);
    write_time(registers, last);
    return matched;
}

uint32_t baseline_supply_return(uint8_t *image, size_t image_len, uint32_t seconds)
{
    /* Registers, sixteenths and flags. */
    uint8_t kept[STLED325_AT_FLAGS + 1];

    if (!image_valid(image, image_len))
        return STLED325_BAD_IMAGE;
    if (seconds > STLED325_LONGEST_CUT)
        return STLED325_CUT_TOO_LONG;
    memcpy(kept, image, sizeof kept);
    write_power_up(image);
    memcpy(image, kept, sizeof kept);
    if ((image[STLED325_REG_SECONDS] & STLED325_OSC_ST) == 0 && move_on(image, seconds))
        image[STLED325_AT_FLAGS] |= STLED325_ALARM_FLAG;
    if ((image[STLED325_AT_FLAGS] & STLED325_ALARM_FLAG) != 0)
        image[STLED325_AT_INTERRUPT] = STLED325_INT_RTC;
    return STLED325_ACCEPTED;
}
