/*
 * night.c - a night in the reading room.
 *
 * One panel over two nights, drawn in the terminal as a person before it would
 * see it: sleep at closing, a clock that runs on, two keys in the night, a mains
 * cut that swallows the hour of the alarm, a panel that tells its alarm all the
 * same, and a morning on which the alarm wakes it. Everything seen comes from
 * the library's calls; the program only plays the keys, the host and the mains.
 * How it is drawn is in face.c.
 *
 * Build: cc -std=c99 -I include examples/night.c examples/face.c \
 *            libstled325.a -o night
 */
#include <stdio.h>
#include <stdlib.h>
#include <string.h>

#include "face.h"
#include "stled325.h"

/* Seconds of the story, counted from Monday 16 November 2026, 00:00:00. */
enum { MONDAY, TUESDAY, WEDNESDAY };
#define DAY 86400UL
#define AT(day, hour, minute, second) \
    (DAY * (day) + 3600UL * (hour) + 60UL * (minute) + (second))

/* Two keys of the front: KEY1 on KS1, the only hot one, and KEY2 on KS3. */
#define POWER_KEY 0x0001u
#define MENU_KEY  0x0020u

static uint8_t image[STLED325_IMAGE_LEN];
static unsigned long now;    /* the story's time                      */
static double pause_seconds; /* after each picture; 0 for a plain run */

/* ---- checking and drawing ------------------------------------------ */

static void must(uint32_t number, const char *call)
{
    if (number != STLED325_ACCEPTED) {
        fflush(stdout);
        fprintf(stderr, "night: %s was refused by %lu\n", call, (unsigned long)number);
        exit(EXIT_FAILURE);
    }
}

/* The panel as it is seen now; one without supply shows nothing at all. */
static void draw(int powered)
{
    uint8_t digits[STLED325_DIGITS_LEN] = { 0 };
    uint8_t lines[STLED325_LINES_LEN] = { 0 };

    if (powered) {
        must(stled325_show(image, sizeof image, digits, sizeof digits), "show");
        must(stled325_lines(image, sizeof image, lines, sizeof lines), "lines");
    }
    draw_face(digits, lines[0], pause_seconds);
}

/* ---- what happens to the panel ------------------------------------- */

/* Ticks until the story reaches this time, then a caption for what comes. */
static void scene(unsigned long then, const char *words)
{
    static const char *const days[3] = { "Mon", "Tue", "Wed" };
    const unsigned long time = then % DAY;
    unsigned long ticks;

    for (ticks = (then - now) * STLED325_TICKS_PER_SECOND; ticks > 0; ticks--)
        must(stled325_tick(image, sizeof image), "tick");
    now = then;
    printf("%s%s %02lu:%02lu:%02lu%s  %s\n", ink(BOLD), days[now / DAY],
           time / 3600, time / 60 % 60, time % 60, ink(PLAIN), words);
}

/* The host sends a command, and the bytes of both ways are told. */
static void host(const char *why, const uint8_t *bytes, size_t bytes_len,
                 uint8_t *out, size_t out_len)
{
    size_t i;
    int column = 0;

    must(stled325_command(image, sizeof image, bytes, bytes_len, out, out_len), why);
    printf("    host ");
    for (i = 0; i < bytes_len; i++)
        column += printf(" %02X", bytes[i]);
    if (out_len > 0)
        column += printf(" ->");
    for (i = 0; i < out_len; i++)
        column += printf(" %02X", out[i]);
    printf("%*s  %s\n", column < 33 ? 33 - column : 0, "", why);
}

#define ASK(why, out, out_len, ...) \
    host(why, (const uint8_t[]){ __VA_ARGS__ }, sizeof (uint8_t[]){ __VA_ARGS__ }, \
         out, out_len)
#define SAY(why, ...) ASK(why, (uint8_t[1]){ 0 }, 0, __VA_ARGS__)

/* The host reads interrupt byte and flags, which must tell of the alarm. */
static void read_alarm(const char *why, uint8_t source)
{
    uint8_t reply[2];

    ASK(why, reply, sizeof reply, STLED325_CMD_READ_INTERRUPTS);
    if (reply[0] != source || reply[1] != STLED325_ALARM_FLAG) {
        fflush(stdout);
        fprintf(stderr, "night: the alarm was lost\n");
        exit(EXIT_FAILURE);
    }
}

/* A key goes down and up again; the scan sees each state twice. */
static void press(uint16_t key)
{
    must(stled325_key_sample(image, sizeof image, key), "key sample");
    must(stled325_key_sample(image, sizeof image, key), "key sample");
    must(stled325_key_sample(image, sizeof image, 0), "key sample");
    must(stled325_key_sample(image, sizeof image, 0), "key sample");
}

static void ready(uint32_t level)
{
    must(stled325_ready(image, sizeof image, level), "READY");
}

/* ---- the story ----------------------------------------------------- */

static void evening(void)
{
    now = AT(MONDAY, 17, 30, 0);
    must(stled325_power_up(image, sizeof image), "power-up");
    scene(now, "Plugged in. The panel powers up dark, the sound muted.");
    draw(1);

    scene(AT(MONDAY, 17, 30, 2), "The host has booted and greets the room.");
    SAY("five digits", STLED325_CMD_WRITE_DIGITS, STLED325_DIGIT_1, 0x76, 0x79, 0x38, 0x38, 0x3F);
    SAY("display on, brightest", STLED325_CMD_SET_DISPLAY | STLED325_DISPLAY_ON | 15);
    draw(1);

    scene(AT(MONDAY, 17, 30, 5), "It sets clock, alarm and hot key, then raises READY.");
    SAY("clock: Mon 16 Nov 2026, 17:30:05", STLED325_CMD_WRITE_REGISTERS, STLED325_REG_SECONDS,
        0x05, 0x30, 0x17, 0x02, 0x16, 0x11, 0x26);
    SAY("alarm: daily 07:30:00, AFE and ABE", STLED325_CMD_WRITE_REGISTERS,
        STLED325_REG_ALARM_MONTH, STLED325_AFE | STLED325_ABE, STLED325_RPT4 | STLED325_RPT5,
        STLED325_RPT6 | 0x07, 0x30, 0x00);
    SAY("KEY1 on KS1 is hot", STLED325_CMD_SET_HOT_KEYS, POWER_KEY, 0x00);
    SAY("clock face, NEC remote, guard 10 s", STLED325_CMD_CONFIGURE | STLED325_CFG_CLOCK_FACE
        | STLED325_CFG_GUARD_STANDBY, STLED325_PROTOCOL_NEC | 10);
    ready(1);
    draw(1);

    scene(AT(MONDAY, 18, 0, 0), "Closing time. The host asks for standby, and its READY falls.");
    SAY("standby", STLED325_CMD_STANDBY);
    ready(0);
    draw(1);
}

static void night(void)
{
    uint8_t reply[2];

    scene(AT(MONDAY, 18, 0, 59), "In the dark room the clock goes on ...");
    draw(1);
    scene(AT(MONDAY, 18, 1, 0), "... minute by minute.");
    draw(1);

    scene(AT(MONDAY, 21, 15, 0), "A duster brushes the menu key. It is cold: nothing happens.");
    press(MENU_KEY);
    draw(1);

    scene(AT(MONDAY, 22, 40, 0), "The porter presses the power key. It is hot: the panel wakes.");
    press(POWER_KEY);
    draw(1);

    scene(AT(MONDAY, 22, 40, 4), "The host has booted, READY rises, and IRQ calls it.");
    ready(1);
    draw(1);

    scene(now, "It reads what has happened, and IRQ falls.");
    ASK("keys: KEY1 on KS1 only", reply, sizeof reply, STLED325_CMD_READ_KEYS);
    ASK("interrupt: a key, in standby", reply, sizeof reply, STLED325_CMD_READ_INTERRUPTS);
    draw(1);
}

static void small_hours(void)
{
    scene(AT(MONDAY, 22, 45, 0), "The porter is done. READY falls, and the panel sleeps again.");
    ready(0);
    draw(1);

    scene(AT(TUESDAY, 5, 0, 0), "Five in the morning, all is well ...");
    draw(1);
    scene(now, "... and the mains fail. Nothing is lit, and no tick comes.");
    draw(0);
}

static void morning(void)
{
    const unsigned long cut = AT(TUESDAY, 9, 0, 0) - now;
    uint8_t clock[7];

    must(stled325_supply_return(image, sizeof image, (uint32_t)cut), "supply return");
    now += cut;
    scene(now, "The supply returns. The panel is awake, its display still off.");
    printf("    the cut took %lu s, and 07:30:00 fell within it\n", cut);
    draw(1);

    scene(AT(TUESDAY, 9, 0, 3), "The host has booted, READY rises, and IRQ calls it.");
    ready(1);
    draw(1);

    scene(now, "It reads what has happened, and the time, and lights the face.");
    read_alarm("interrupt: RTC; flag: alarm", STLED325_INT_RTC);
    ASK("clock: Tue 17 Nov 2026, 09:00:03", clock, sizeof clock,
        STLED325_CMD_READ_REGISTERS, STLED325_REG_SECONDS);
    SAY("clock face, NEC remote, no guard", STLED325_CMD_CONFIGURE | STLED325_CFG_CLOCK_FACE,
        STLED325_PROTOCOL_NEC);
    SAY("display on, brightest", STLED325_CMD_SET_DISPLAY | STLED325_DISPLAY_ON | 15);
    draw(1);
}

static void second_night(void)
{
    scene(AT(TUESDAY, 18, 0, 0), "Closing time again. READY falls, and the panel sleeps ...");
    ready(0);
    draw(1);

    scene(AT(WEDNESDAY, 7, 30, 0), "... until its alarm wakes it, with no key and no cut.");
    draw(1);

    scene(AT(WEDNESDAY, 7, 30, 4), "The host has booted, READY rises, and it reads what woke it.");
    ready(1);
    read_alarm("interrupt: RTC, in standby; alarm", STLED325_INT_STBY_RTC);
    draw(1);

    scene(now, "Before the doors open the terminal is lit, and no alarm was lost.");
}

/* ---- options ------------------------------------------------------- */

static const char help[] =
    "night: a night in the reading room, on the STLED325 panel library\n"
    "\n"
    "usage: night [--watch] [--speed N] [--help]\n"
    "\n"
    "  --watch    two seconds for each picture, to be watched\n"
    "  --speed N  N pictures a minute, 1 to 600\n"
    "  --help     this text\n"
    "\n"
    "Without options all runs at once. NO_COLOR or TERM=dumb: no colours.\n";

static const char legend[] =
    "STBY   lamp: the main board is off       READY  host's line, high while it runs\n"
    "MUTE   lamp: the sound is off            RTC    the clock in the panel\n"
    "IRQ    lamp: the panel calls the host    AFE    its alarm counts ...\n"
    "host   the program of the main board     ABE    ... over a mains cut too\n"
    "guard  seconds in which READY must rise, or the panel sleeps again\n"
    "key    a hot one wakes the panel, a cold one does not    (*)    a lamp is lit\n"
    "\n";

static int wrong(const char *what, const char *word)
{
    fprintf(stderr, "night: %s %s\n\n%s", what, word, help);
    return 2;
}

int main(int argc, char **argv)
{
    int i;

    for (i = 1; i < argc; i++) {
        if (strcmp(argv[i], "--help") == 0 || strcmp(argv[i], "-h") == 0) {
            fputs(help, stdout);
            return EXIT_SUCCESS;
        } else if (strcmp(argv[i], "--watch") == 0) {
            pause_seconds = 2;
        } else if (strcmp(argv[i], "--speed") == 0 && i + 1 < argc) {
            char *end;
            const long speed = strtol(argv[++i], &end, 10);
            if (*end != '\0' || speed < 1 || speed > 600)
                return wrong("--speed takes a number from 1 to 600, not", argv[i]);
            pause_seconds = 60.0 / (double)speed;
        } else if (strcmp(argv[i], "--speed") == 0) {
            return wrong("no number after", argv[i]);
        } else {
            return wrong("unknown option", argv[i]);
        }
    }
    fputs(legend, stdout);
    evening();
    night();
    small_hours();
    morning();
    second_night();
    if (fflush(stdout) != 0 || ferror(stdout)) {
        perror("night: the output could not be written");
        return EXIT_FAILURE;
    }
    return EXIT_SUCCESS;
}
