/* The calendar in BCD: lengths of months and the carry of a day. */
#ifndef BASELINE_CALENDAR_H
#define BASELINE_CALENDAR_H

#include "panel.h"

static inline unsigned from_bcd(unsigned byte)
{
    return 10 * (byte >> 4) + (byte & 0x0Fu);
}

static inline unsigned to_bcd(unsigned number)
{
    return number / 10 << 4 | number % 10;
}

/* The BCD byte one higher, below 99. */
static inline unsigned bcd_next(unsigned byte)
{
    return (byte & 0x0Fu) == 9 ? byte + 7 : byte + 1;
}

/* The last date of a month; month, year and result in BCD. */
static inline unsigned last_date(unsigned month, unsigned year)
{
    static const uint8_t last[0x13] = {
        [0x01] = 0x31, [0x02] = 0x28, [0x03] = 0x31, [0x04] = 0x30, [0x05] = 0x31, [0x06] = 0x30,
        [0x07] = 0x31, [0x08] = 0x31, [0x09] = 0x30, [0x10] = 0x31, [0x11] = 0x30, [0x12] = 0x31,
    };

    return month == 0x02 && from_bcd(year) % 4 == 0 ? 0x29 : last[month];
}

/* A day of the calendar; date, month and year in BCD. */
struct day {
    unsigned weekday, date, month, year, century;
};

static inline struct day day_in(const uint8_t *registers)
{
    struct day day;
    day.weekday = registers[STLED325_REG_WEEKDAY];
    day.date = registers[STLED325_REG_DATE];
    day.month = registers[STLED325_REG_MONTH] & 0x1Fu;
    day.year = registers[STLED325_REG_YEAR];
    day.century = registers[STLED325_REG_MONTH] >> 6;
    return day;
}

static inline void write_day(uint8_t *registers, struct day day)
{
    registers[STLED325_REG_WEEKDAY] = (uint8_t)day.weekday;
    registers[STLED325_REG_DATE] = (uint8_t)day.date;
    registers[STLED325_REG_MONTH] = (uint8_t)(day.century << 6 | day.month);
    registers[STLED325_REG_YEAR] = (uint8_t)day.year;
}

static inline struct day next_day(struct day day)
{
    day.weekday = day.weekday == 7 ? 1 : day.weekday + 1;
    if (day.date != last_date(day.month, day.year)) {
        day.date = bcd_next(day.date);
        return day;
    }
    day.date = 0x01;
    if (day.month != 0x12) {
        day.month = bcd_next(day.month);
        return day;
    }
    day.month = 0x01;
    if (day.year != 0x99) {
        day.year = bcd_next(day.year);
        return day;
    }
    day.year = 0x00;
    day.century = (day.century + 1) % 4;
    return day;
}

#endif
