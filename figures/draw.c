/* Random images and calls, drawn so that each rule of the panel is met often. */
#include "draw.h"

#include "baseline/calendar.h"

/* splitmix64, so that every run makes the same calls. */
static uint64_t state = 325;

static uint32_t draw(void)
{
    uint64_t z = state += 0x9E3779B97F4A7C15u;
    z = (z ^ z >> 30) * 0xBF58476D1CE4E5B9u;
    z = (z ^ z >> 27) * 0x94D049BB133111EBu;
    return (uint32_t)(z >> 32);
}

uint32_t below(uint32_t limit)
{
    return (uint32_t)((uint64_t)draw() * limit >> 32);
}

int once_in(uint32_t times)
{
    return below(times) == 0;
}

static uint8_t byte(void)
{
    return (uint8_t)draw();
}

/* A clock that is often just before a carry. */
static void random_clock(uint8_t *reg)
{
    unsigned month = once_in(3) ? 12 : 1 + below(12);
    unsigned year = once_in(3) ? 99 : below(100);
    unsigned last = from_bcd(last_date(to_bcd(month), to_bcd(year)));
    unsigned date = once_in(2) ? last : 1 + below(last);

    reg[STLED325_REG_SECONDS] |= (uint8_t)to_bcd(once_in(2) ? 59 : below(60));
    reg[STLED325_REG_MINUTES] = (uint8_t)to_bcd(once_in(2) ? 59 : below(60));
    reg[STLED325_REG_HOURS] |= (uint8_t)to_bcd(once_in(2) ? 23 : below(24));
    reg[STLED325_REG_WEEKDAY] = (uint8_t)(1 + below(7));
    reg[STLED325_REG_DATE] = (uint8_t)to_bcd(date);
    reg[STLED325_REG_MONTH] = (uint8_t)((byte() & STLED325_CB) | to_bcd(month));
    reg[STLED325_REG_YEAR] = (uint8_t)to_bcd(year);
}

/* An alarm of which each field is not compared, the clock's own, possible or anything; often the clock's own time. */
static void random_alarm(uint8_t *reg)
{
    static const uint8_t repeats[6] = {0, STLED325_RPT4, STLED325_RPT3, STLED325_RPT2, STLED325_RPT1, 0};
    static const uint8_t most[6] = {12, 31, 23, 59, 59, 0};
    uint32_t spread = once_in(3) ? 1 : 2;
    uint8_t own[6];
    size_t i;

    own[0] = reg[STLED325_REG_MONTH] & 0x1F;
    own[1] = reg[STLED325_REG_DATE];
    own[2] = reg[STLED325_REG_HOURS] & 0x3F;
    own[3] = reg[STLED325_REG_MINUTES];
    own[4] = reg[STLED325_REG_SECONDS] & 0x7F;
    own[5] = (uint8_t)(reg[STLED325_REG_WEEKDAY] << 4);
    for (i = 0; i < 5; i++) {
        uint8_t value = once_in(spread) ? own[i] : (uint8_t)to_bcd(below(most[i] + 1u));
        reg[STLED325_REG_ALARM_MONTH + i] = once_in(12) ? byte() : (uint8_t)(value | (once_in(2) ? repeats[i] : 0));
    }
    reg[STLED325_REG_ALARM_MONTH] &= 0x1F;
    reg[STLED325_REG_ALARM_MONTH] |= once_in(3) ? byte() & 0xA0 : 0xA0;
    reg[STLED325_REG_ALARM_DATE] |= once_in(2) ? STLED325_RPT5 : 0;
    reg[STLED325_REG_ALARM_HOUR] |= once_in(2) ? STLED325_RPT6 : 0;
    reg[STLED325_REG_ALARM_WEEKDAY] = (uint8_t)((byte() & STLED325_WDFEN) | (once_in(2) ? own[5] : byte() & 0x70));
}

static unsigned rest(unsigned most)
{
    unsigned left = once_in(2) ? below(3) : below(most + 1);
    return left < most ? left : most;
}

void random_image(uint8_t *image)
{
    static const uint8_t protocols[4] = {STLED325_PROTOCOL_OFF, STLED325_PROTOCOL_RC5, STLED325_PROTOCOL_NEC,
                                         STLED325_PROTOCOL_NEC};
    size_t i;

    memset(image, 0, STLED325_IMAGE_LEN);
    image[STLED325_REG_SECONDS] = once_in(8) ? STLED325_OSC_ST : 0;
    image[STLED325_REG_HOURS] = byte() & 0xC0 & byte();
    random_clock(image);
    image[STLED325_REG_CALIBRATION] = byte() & 0xBF;
    image[STLED325_REG_WATCHDOG] = byte();
    random_alarm(image);
    image[STLED325_AT_SIXTEENTHS] = once_in(2) ? 15 : (uint8_t)below(16);
    image[STLED325_AT_FLAGS] = (uint8_t)below(4);
    image[STLED325_AT_INTERRUPT] = once_in(2) ? 0 : byte();
    image[STLED325_AT_PINS] = once_in(2) ? (uint8_t)below(8) : (uint8_t)below(4);
    image[STLED325_AT_CONFIGURATION] = byte() & 0x2F;
    image[STLED325_AT_SETUP] = (uint8_t)(protocols[below(4)] | below(16));
    if ((image[STLED325_AT_PINS] & STLED325_PIN_STBY) == 0)
        set_word(image, STLED325_AT_GUARD_LEFT, rest(guard_load(image[STLED325_AT_SETUP])));
    set_word(image, STLED325_AT_WATCHDOG_LEFT, rest(watchdog_load(image[STLED325_REG_WATCHDOG])));
    for (i = STLED325_AT_HOT_KEYS; i < STLED325_AT_REMOTE_FRESH; i++)
        image[i] = byte() & byte();
    image[STLED325_AT_REMOTE_FRESH] = (uint8_t)below(2);
    image[STLED325_AT_REMOTE_COMMAND] = image[STLED325_AT_REMOTE_FRESH] ? byte() : 0;
    image[STLED325_AT_DIGITS] = (uint8_t)(1 + below(5));
    image[STLED325_AT_DISPLAY_CONTROL] = byte() & 0x1F;
    for (i = STLED325_AT_DIGIT_BYTES; i < STLED325_AT_UNUSED; i++)
        image[i] = byte();
}

/* A 50h command: seven clock bytes, sometimes with one off, or any bytes from any address. */
static void random_write(struct call *call)
{
    uint8_t reg[16] = {0};

    if (once_in(2)) {
        random_clock(reg);
        call->bytes[1] = STLED325_REG_SECONDS;
        memcpy(call->bytes + 2, reg + STLED325_REG_SECONDS, 7);
        call->bytes_len = 9;
        if (once_in(3))
            call->bytes[2 + below(7)] = byte();
    } else {
        call->bytes[1] = once_in(8) ? byte() : (uint8_t)(4 + below(13));
        call->bytes_len = 2 + below(MOST_BYTES - 1);
    }
}

static void random_command(struct call *call)
{
    static const uint8_t firsts[16] = {0x00, 0x10, 0x40, 0x40, 0x50, 0x50, 0x50, 0x61,
                                       0x62, 0x63, 0x70, 0x80, 0xA0, 0xC1, 0xC2, 0x64};
    size_t i;

    for (i = 0; i < MOST_BYTES; i++)
        call->bytes[i] = byte();
    call->bytes[0] = firsts[below(16)];
    call->bytes_len = once_in(8) ? below(4) : 3 + below(MOST_BYTES - 2);
    call->out_len = once_in(2) ? below(4) : below(MOST_BYTES);
    if (call->bytes[0] < 0x40) {
        call->bytes[0] |= byte() & 0x2F;
        call->bytes[1] &= once_in(4) ? 0xFF : 0xCF;
        call->bytes[2] = (uint8_t)below(7);
    } else if (call->bytes[0] == 0x50) {
        random_write(call);
    } else if (call->bytes[0] == 0x80) {
        call->bytes[0] |= byte() & 0x1F;
    } else if (call->bytes[0] == 0x40 || call->bytes[0] == 0x70) {
        call->bytes[1] = (uint8_t)((call->bytes[0] == 0x40 ? 0x0F : 0) + below(7));
    } else if (once_in(8)) {
        call->bytes[0] = byte();
    }
}

static uint32_t random_frame(const uint8_t *image)
{
    uint32_t command = byte();
    uint32_t nec = 0xFF00u | command << 16 | (~command & 0xFFu) << 24;
    uint32_t rc5 = 0x3000u | below(2) << 11 | (command & 0x3Fu);
    uint32_t frame = (image[STLED325_AT_SETUP] & 0x70u) == STLED325_PROTOCOL_NEC ? nec : rc5;

    return once_in(4) ? frame ^ 1u << below(32) : frame;
}

static uint32_t random_cut(void)
{
    switch (below(6)) {
    case 0:
        return below(3);
    case 1:
        return below(4000);
    case 2:
        return 86400 * below(9) + below(3);
    case 3:
        return below(40 * 86400);
    case 4:
        return (uint32_t)STLED325_LONGEST_CUT - 1 + below(3);
    default:
        return below((uint32_t)STLED325_LONGEST_CUT);
    }
}

void random_call(struct call *call, const uint8_t *image)
{
    memset(call, 0, sizeof *call);
    call->kind = once_in(3) ? TICK : once_in(3) ? COMMAND : (enum kind)below(KINDS);
    call->image_len = once_in(64) ? below(STLED325_IMAGE_LEN + 1) : STLED325_IMAGE_LEN;
    switch (call->kind) {
    case COMMAND:
        random_command(call);
        break;
    case KEY_SAMPLE:
        call->number = once_in(3) ? draw() & 0xFFFFu : word_at(image, STLED325_AT_LAST_SAMPLE);
        break;
    case REMOTE_FRAME:
        call->number = random_frame(image);
        break;
    case SUPPLY_RETURN:
        call->number = random_cut();
        break;
    case SHOW:
        call->out_len = once_in(8) ? below(MOST_BYTES) : STLED325_DIGITS_LEN;
        break;
    case LINES:
        call->out_len = once_in(8) ? below(MOST_BYTES) : STLED325_LINES_LEN;
        break;
    default:
        call->number = once_in(2) ? 0 : draw();
    }
}
