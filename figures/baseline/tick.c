/* A tick: the clock with its alarm, then the watchdog, then the guard. */
#include "alarm.h"

static void pass_second(uint8_t *registers)
{
    unsigned face = registers[STLED325_REG_HOURS] & 0xC0u;
    unsigned hour = registers[STLED325_REG_HOURS] & 0x3Fu;

    if (registers[STLED325_REG_SECONDS] != 0x59) {
        registers[STLED325_REG_SECONDS] = (uint8_t)bcd_next(registers[STLED325_REG_SECONDS]);
        return;
    }
    registers[STLED325_REG_SECONDS] = 0x00;
    if (registers[STLED325_REG_MINUTES] != 0x59) {
        registers[STLED325_REG_MINUTES] = (uint8_t)bcd_next(registers[STLED325_REG_MINUTES]);
        return;
    }
    registers[STLED325_REG_MINUTES] = 0x00;
    if (hour != 0x23) {
        registers[STLED325_REG_HOURS] = (uint8_t)(face | bcd_next(hour));
        return;
    }
    registers[STLED325_REG_HOURS] = (uint8_t)face;
    write_day(registers, next_day(day_in(registers)));
}

static int matches(const uint8_t *registers)
{
    return second_fits(registers, registers[STLED325_REG_SECONDS]) &&
           minute_fits(registers, registers[STLED325_REG_MINUTES]) &&
           hour_fits(registers, registers[STLED325_REG_HOURS] & 0x3Fu) &&
           day_fits(registers, day_in(registers));
}

static void step_clock(uint8_t *image)
{
    if (++image[STLED325_AT_SIXTEENTHS] < STLED325_TICKS_PER_SECOND)
        return;
    image[STLED325_AT_SIXTEENTHS] = 0;
    pass_second(image);
    if ((image[STLED325_REG_ALARM_MONTH] & STLED325_AFE) != 0 && matches(image)) {
        image[STLED325_AT_FLAGS] |= STLED325_ALARM_FLAG;
        report(image, STLED325_INT_RTC);
    }
}

static void step_watchdog(uint8_t *image)
{
    unsigned left = word_at(image, STLED325_AT_WATCHDOG_LEFT);

    if (left == 0)
        return;
    set_word(image, STLED325_AT_WATCHDOG_LEFT, left - 1);
    if (left == 1 && (image[STLED325_REG_ALARM_WEEKDAY] & STLED325_WDFEN) != 0) {
        image[STLED325_AT_FLAGS] |= STLED325_WATCHDOG_FLAG;
        report(image, STLED325_INT_RTC);
    }
}

static void step_guard(uint8_t *image)
{
    unsigned left = word_at(image, STLED325_AT_GUARD_LEFT);

    if (left == 0)
        return;
    set_word(image, STLED325_AT_GUARD_LEFT, left - 1);
    if (left == 1 && (image[STLED325_AT_CONFIGURATION] & STLED325_CFG_GUARD_STANDBY) != 0)
        begin_standby(image);
}

uint32_t baseline_tick(uint8_t *image, size_t image_len)
{
    if (!image_valid(image, image_len))
        return STLED325_BAD_IMAGE;
    if ((image[STLED325_REG_SECONDS] & STLED325_OSC_ST) == 0) {
        step_clock(image);
        step_watchdog(image);
    }
    step_guard(image);
    return STLED325_ACCEPTED;
}
