/* Commands: each checks its own grounds 5 to 9 in their order. */
#include "panel.h"

struct command {
    const uint8_t *bytes;
    size_t len;
    uint8_t *out;
    size_t out_len;
};

/* The reply as far as the output holds it, and FFh behind. */
static void reply(const struct command *c, const uint8_t *bytes, size_t len)
{
    if (len > c->out_len)
        len = c->out_len;
    memcpy(c->out, bytes, len);
    memset(c->out + len, STLED325_FILL, c->out_len - len);
}

static uint32_t read_and_clear(uint8_t *image, const struct command *c, size_t at, size_t len)
{
    if (c->out_len < len)
        return STLED325_TOO_SHORT;
    reply(c, image + at, len);
    memset(image + at, 0, len);
    return STLED325_ACCEPTED;
}

static uint32_t read_interrupts(uint8_t *image, const struct command *c)
{
    uint8_t both[2];

    if (c->out_len < sizeof both)
        return STLED325_TOO_SHORT;
    both[0] = image[STLED325_AT_INTERRUPT];
    both[1] = image[STLED325_AT_FLAGS];
    reply(c, both, sizeof both);
    image[STLED325_AT_INTERRUPT] = 0;
    image[STLED325_AT_FLAGS] = 0;
    return STLED325_ACCEPTED;
}

static uint32_t read_registers(const uint8_t *image, const struct command *c)
{
    if (c->len < 2)
        return STLED325_TOO_SHORT;
    if (c->bytes[1] > STLED325_REG_ALARM_WEEKDAY)
        return STLED325_BAD_ADDRESS;
    reply(c, image + c->bytes[1], 16u - c->bytes[1]);
    return STLED325_ACCEPTED;
}

static uint32_t configure(uint8_t *image, const struct command *c)
{
    uint8_t bits = c->bytes[0];
    int gives_digits = (bits & STLED325_CFG_GIVES_DIGITS) != 0;

    if (c->len < (gives_digits ? 3u : 2u))
        return STLED325_TOO_SHORT;
    if (!protocol_listed(c->bytes[1]))
        return STLED325_BAD_PROTOCOL;
    if (gives_digits && (c->bytes[2] < 1 || c->bytes[2] > 5))
        return STLED325_BAD_DIGITS;
    image[STLED325_AT_CONFIGURATION] = bits & (uint8_t)~STLED325_CFG_GIVES_DIGITS;
    image[STLED325_AT_SETUP] = c->bytes[1] & 0x7F;
    set_word(image, STLED325_AT_GUARD_LEFT, guard_load(c->bytes[1]));
    if (gives_digits && c->bytes[2] != image[STLED325_AT_DIGITS]) {
        image[STLED325_AT_DIGITS] = c->bytes[2];
        image[STLED325_AT_DISPLAY_CONTROL] &= (uint8_t)~STLED325_DISPLAY_ON;
    }
    return STLED325_ACCEPTED;
}

static uint32_t write_digits(uint8_t *image, const struct command *c)
{
    size_t from, count;

    if (c->len < 3)
        return STLED325_TOO_SHORT;
    if (c->bytes[1] < STLED325_DIGIT_1 || c->bytes[1] > STLED325_DIGIT_1 + 4)
        return STLED325_BAD_ADDRESS;
    from = c->bytes[1] - STLED325_DIGIT_1;
    count = c->len - 2;
    if (count > STLED325_DIGITS_LEN - from)
        count = STLED325_DIGITS_LEN - from;
    memcpy(image + STLED325_AT_DIGIT_BYTES + from, c->bytes + 2, count);
    return STLED325_ACCEPTED;
}

static uint32_t write_registers(uint8_t *image, const struct command *c)
{
    /* The bits of each register that are not reserved. */
    static const uint8_t kept[16] = {
        0x00, 0xFF, 0x7F, 0xFF, 0x07, 0x3F, 0xDF, 0xFF, 0xBF, 0xFF, 0xBF, 0xFF, 0xFF, 0xFF, 0xFF, 0xF0,
    };
    uint8_t next[16];
    size_t from, end, at;

    if (c->len < 3)
        return STLED325_TOO_SHORT;
    from = c->bytes[1];
    if (from < STLED325_REG_SECONDS || from > STLED325_REG_ALARM_WEEKDAY)
        return STLED325_BAD_ADDRESS;
    end = c->len - 2 < 16 - from ? from + c->len - 2 : 16;
    memcpy(next, image, sizeof next);
    for (at = from; at < end; at++)
        next[at] = c->bytes[2 + at - from] & kept[at];
    if (!calendar_valid(next))
        return STLED325_BAD_CALENDAR;
    memcpy(image, next, sizeof next);
    if (from <= STLED325_REG_YEAR)
        image[STLED325_AT_SIXTEENTHS] = 0;
    if (from <= STLED325_REG_WATCHDOG && STLED325_REG_WATCHDOG < end)
        set_word(image, STLED325_AT_WATCHDOG_LEFT, watchdog_load(next[STLED325_REG_WATCHDOG]));
    return STLED325_ACCEPTED;
}

static uint32_t set_hot_keys(uint8_t *image, const struct command *c)
{
    if (c->len < 3)
        return STLED325_TOO_SHORT;
    image[STLED325_AT_HOT_KEYS] = c->bytes[1];
    image[STLED325_AT_HOT_KEYS + 1] = c->bytes[2];
    return STLED325_ACCEPTED;
}

static uint32_t set_display(uint8_t *image, uint8_t first)
{
    image[STLED325_AT_DISPLAY_CONTROL] = first & 0x1F;
    return STLED325_ACCEPTED;
}

static uint32_t standby(uint8_t *image)
{
    begin_standby(image);
    return STLED325_ACCEPTED;
}

static uint32_t reload_guard(uint8_t *image)
{
    if (word_at(image, STLED325_AT_GUARD_LEFT) != 0)
        set_word(image, STLED325_AT_GUARD_LEFT, guard_load(image[STLED325_AT_SETUP]));
    return STLED325_ACCEPTED;
}

static uint32_t execute(uint8_t *image, const struct command *c)
{
    uint8_t first = c->bytes[0];

    if (first < 0x40)
        return configure(image, c);
    if ((first & 0xE0) == STLED325_CMD_SET_DISPLAY)
        return set_display(image, first);
    switch (first) {
    case STLED325_CMD_WRITE_DIGITS:
        return write_digits(image, c);
    case STLED325_CMD_WRITE_REGISTERS:
        return write_registers(image, c);
    case STLED325_CMD_READ_KEYS:
        return read_and_clear(image, c, STLED325_AT_KEY_STORE, 2);
    case STLED325_CMD_READ_REMOTE:
        return read_and_clear(image, c, STLED325_AT_REMOTE_FRESH, 3);
    case STLED325_CMD_READ_INTERRUPTS:
        return read_interrupts(image, c);
    case STLED325_CMD_READ_REGISTERS:
        return read_registers(image, c);
    case STLED325_CMD_SET_HOT_KEYS:
        return set_hot_keys(image, c);
    case STLED325_CMD_STANDBY:
        return standby(image);
    case STLED325_CMD_RELOAD_GUARD:
        return reload_guard(image);
    default:
        return STLED325_UNKNOWN_COMMAND;
    }
}

uint32_t baseline_command(uint8_t *image, size_t image_len,
                          const uint8_t *bytes, size_t bytes_len,
                          uint8_t *out, size_t out_len)
{
    struct command c = {bytes, bytes_len, out, out_len};

    if (!image_valid(image, image_len))
        return STLED325_BAD_IMAGE;
    if (bytes_len == 0)
        return STLED325_NO_COMMAND;
    if (in_standby(image))
        return STLED325_IN_STANDBY;
    return execute(image, &c);
}
