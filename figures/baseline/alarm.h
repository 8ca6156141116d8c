/*
 * The alarm's comparison. A clock byte is always a possible time in BCD, so an
 * alarm byte that is none equals no clock byte.
 */
#ifndef BASELINE_ALARM_H
#define BASELINE_ALARM_H

#include "calendar.h"

/* True if the field is not compared or equals the clock's byte. */
static inline int fits(unsigned alarm, unsigned repeat, unsigned bits, unsigned clock)
{
    return (alarm & repeat) != 0 || (alarm & bits) == clock;
}

static inline int hour_fits(const uint8_t *registers, unsigned hour)
{
    return fits(registers[STLED325_REG_ALARM_HOUR], STLED325_RPT3, 0x3F, hour);
}

static inline int minute_fits(const uint8_t *registers, unsigned minute)
{
    return fits(registers[STLED325_REG_ALARM_MINUTE], STLED325_RPT2, 0x7F, minute);
}

static inline int second_fits(const uint8_t *registers, unsigned second)
{
    return fits(registers[STLED325_REG_ALARM_SECOND], STLED325_RPT1, 0x7F, second);
}

static inline int day_fits(const uint8_t *registers, struct day day)
{
    unsigned weekday = registers[STLED325_REG_ALARM_WEEKDAY] >> 4 & 0x07u;

    return fits(registers[STLED325_REG_ALARM_DATE], STLED325_RPT4, 0x3F, day.date) &&
           ((registers[STLED325_REG_ALARM_DATE] & STLED325_RPT5) != 0 ||
            (registers[STLED325_REG_ALARM_MONTH] & 0x1Fu) == day.month) &&
           ((registers[STLED325_REG_ALARM_HOUR] & STLED325_RPT6) != 0 || weekday == day.weekday);
}

#endif
