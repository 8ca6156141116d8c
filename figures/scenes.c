/* The states are made by the archive's own calls, so that they are states that a panel comes to. */
#include "scenes.h"

#include <string.h>

#define COUNT(array) (sizeof(array) / sizeof *(array))

static void send(uint8_t *image, const uint8_t *bytes, size_t len)
{
    uint8_t none[1] = {0};

    stled325_command(image, STLED325_IMAGE_LEN, bytes, len, none, 0);
}

#define SEND(image, ...) send(image, (const uint8_t[]){__VA_ARGS__}, sizeof((const uint8_t[]){__VA_ARGS__}))

static void ticks(uint8_t *image, unsigned count)
{
    while (count-- > 0)
        stled325_tick(image, STLED325_IMAGE_LEN);
}

/* Awake at 12:34:56 on 15 May 2024, with a daily alarm, watchdog and guard running, NEC, the clock shown. */
static void awake(uint8_t *image)
{
    stled325_power_up(image, STLED325_IMAGE_LEN);
    stled325_ready(image, STLED325_IMAGE_LEN, 1);
    SEND(image, 0x50, 0x01, 0x56, 0x34, 0x12, 0x04, 0x15, 0x05, 0x24, 0x80, 0xFC, 0xA0, 0xC0, 0x47, 0x30, 0x00, 0x80);
    SEND(image, 0x3D, 0x4A, 0x05);
    SEND(image, 0xA0, 0x01, 0x00);
    SEND(image, 0x97);
    SEND(image, 0x40, 0x10, 0x3F, 0x06, 0x5B, 0x4F, 0x66);
}

static void second_due(uint8_t *image)
{
    awake(image);
    ticks(image, 15);
}

static void year_due(uint8_t *image)
{
    awake(image);
    SEND(image, 0x50, 0x01, 0x59, 0x59, 0x23, 0x07, 0x31, 0x12, 0x99);
    ticks(image, 15);
}

static void asleep(uint8_t *image)
{
    awake(image);
    SEND(image, 0xC1);
}

static void alarm_due_asleep(uint8_t *image)
{
    awake(image);
    SEND(image, 0x50, 0x01, 0x59, 0x29, 0x07);
    SEND(image, 0xC1);
    ticks(image, 15);
}

static void damaged(uint8_t *image)
{
    awake(image);
    image[STLED325_REG_SECONDS] = 0x1A;
}

static void damaged_at_its_end(uint8_t *image)
{
    awake(image);
    image[STLED325_IMAGE_LEN - 1] = 1;
}

static void key_seen_once(uint8_t *image)
{
    awake(image);
    stled325_key_sample(image, STLED325_IMAGE_LEN, 0x0001);
}

static void key_seen_once_asleep(uint8_t *image)
{
    asleep(image);
    stled325_key_sample(image, STLED325_IMAGE_LEN, 0x0001);
}

static void keys_stored(uint8_t *image)
{
    key_seen_once(image);
    stled325_key_sample(image, STLED325_IMAGE_LEN, 0x0001);
    stled325_remote_frame(image, STLED325_IMAGE_LEN, 0xBA45FF00);
}

static void rc5_set(uint8_t *image)
{
    awake(image);
    SEND(image, 0x2D, 0x2A);
}

static void face_off(uint8_t *image)
{
    awake(image);
    SEND(image, 0x25, 0x4A);
}

static void new_year_daily(uint8_t *image)
{
    awake(image);
    SEND(image, 0x50, 0x01, 0x00, 0x00, 0x00, 0x02, 0x01, 0x01, 0x24);
}

static void new_year_never(uint8_t *image)
{
    new_year_daily(image);
    SEND(image, 0x50, 0x0A, 0xA2, 0x30);
}

#define WHOLE STLED325_IMAGE_LEN
#define EVENT(kind) {kind, WHOLE, 0, {0}, 0, 0}
#define NUMBER(kind, number) {kind, WHOLE, number, {0}, 0, 0}
#define VIEW(kind, out_len) {kind, WHOLE, 0, {0}, 0, out_len}
#define SENT(out_len, ...) {COMMAND, WHOLE, 0, {__VA_ARGS__}, sizeof((const uint8_t[]){__VA_ARGS__}), out_len}

const struct scene daily_cut = {"31,622,400 s, daily alarm", new_year_daily, NUMBER(SUPPLY_RETURN, STLED325_LONGEST_CUT), 0};
const struct scene never_cut = {"31,622,400 s, no match", new_year_never, NUMBER(SUPPLY_RETURN, STLED325_LONGEST_CUT), 0};

const struct scene scenes[] = {
    {"any image", awake, EVENT(POWER_UP), 0},
    {"no second passes", awake, EVENT(TICK), 0},
    {"a second passes", second_due, EVENT(TICK), 0},
    {"the year ends", year_due, EVENT(TICK), 0},
    {"an alarm ends standby", alarm_due_asleep, EVENT(TICK), 0},
    {"00 group with digits", awake, SENT(0, 0x3D, 0x4A, 0x05), 0},
    {"40h, five digit bytes", awake, SENT(0, 0x40, 0x10, 0x01, 0x02, 0x04, 0x08, 0x10), 0},
    {"50h, seven clock registers", awake, SENT(0, 0x50, 0x01, 0x30, 0x20, 0x10, 0x04, 0x15, 0x05, 0x24), 0},
    {"50h, six alarm registers", awake, SENT(0, 0x50, 0x0A, 0xA0, 0xC0, 0x46, 0x15, 0x00, 0x80), 0},
    {"61h, key store", keys_stored, SENT(2, 0x61), 0},
    {"62h, remote key", keys_stored, SENT(3, 0x62), 0},
    {"63h, interrupt byte and flags", keys_stored, SENT(2, 0x63), 0},
    {"70h, all sixteen registers", awake, SENT(16, 0x70, 0x00), 0},
    {"97h, display on", awake, SENT(0, 0x97), 0},
    {"A0h, mask of hot keys", awake, SENT(0, 0xA0, 0x03, 0x00), 0},
    {"C1h, standby", awake, SENT(0, 0xC1), 0},
    {"C2h, guard reloaded", awake, SENT(0, 0xC2), 0},
    {"not listed, refused by 4", awake, SENT(0, 0xFF), 4},
    {"in standby, refused by 3", asleep, SENT(2, 0x63), 3},
    {"no key, as before", awake, NUMBER(KEY_SAMPLE, 0x0000), 0},
    {"a new press", key_seen_once, NUMBER(KEY_SAMPLE, 0x0001), 0},
    {"a hot key ends standby", key_seen_once_asleep, NUMBER(KEY_SAMPLE, 0x0001), 0},
    {"NEC", awake, NUMBER(REMOTE_FRAME, 0xBA45FF00), 0},
    {"RC-5", rc5_set, NUMBER(REMOTE_FRAME, 0x300C), 0},
    {"no key, refused by 11", awake, NUMBER(REMOTE_FRAME, 0xBB45FF00), 11},
    {"falls, standby begins", awake, NUMBER(READY, 0), 0},
    {"rises and ends standby", asleep, NUMBER(WAKE_UP, 1), 0},
    {"0 s", awake, NUMBER(SUPPLY_RETURN, 0), 0},
    {"86,400 s, daily alarm", new_year_daily, NUMBER(SUPPLY_RETURN, 86400), 0},
    {"31,622,400 s, daily alarm", new_year_daily, NUMBER(SUPPLY_RETURN, STLED325_LONGEST_CUT), 0},
    {"31,622,400 s, no match", new_year_never, NUMBER(SUPPLY_RETURN, STLED325_LONGEST_CUT), 0},
    {"clock in 12-hour form", awake, VIEW(SHOW, STLED325_DIGITS_LEN), 0},
    {"digit bytes", face_off, VIEW(SHOW, STLED325_DIGITS_LEN), 0},
    {"awake", awake, VIEW(LINES, STLED325_LINES_LEN), 0},
    {"seconds 1Ah, refused by 1", damaged, EVENT(TICK), 1},
    {"byte 63 not zero, refused by 1", damaged_at_its_end, EVENT(TICK), 1},
};

const size_t scene_count = COUNT(scenes);
