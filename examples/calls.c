/*
 * Each call once, through the header: what a board's program does in its first
 * minutes. Prints what every call returned and left, and exits with 1 if one of
 * them is not what include/stled325.h says.
 */
#include <stdio.h>

#include "stled325.h"

static int wrong;

/* Prints a line; `got` has to be `said`. */
static void line(const char *what, unsigned got, unsigned said)
{
    printf("%-52s %02X%s\n", what, got, got == said ? "" : "  <- not what the header says");
    if (got != said)
        wrong = 1;
}

static const uint8_t configure[] = {
    STLED325_CMD_CONFIGURE | STLED325_CFG_WAKE_UP_COUNTS, STLED325_PROTOCOL_NEC};
static const uint8_t standby[] = {STLED325_CMD_STANDBY};
static const uint8_t display_on[] = {STLED325_CMD_SET_DISPLAY | STLED325_DISPLAY_ON};
static const uint8_t digit[] = {STLED325_CMD_WRITE_DIGITS, STLED325_DIGIT_1, 0x3F};
static const uint8_t read_remote[] = {STLED325_CMD_READ_REMOTE};

/* Power-up and the first second. */
static void start(uint8_t *image)
{
    int i;

    line("power-up", stled325_power_up(image, STLED325_IMAGE_LEN), STLED325_ACCEPTED);

    for (i = 0; i < STLED325_TICKS_PER_SECOND; i++)
        wrong |= stled325_tick(image, STLED325_IMAGE_LEN) != STLED325_ACCEPTED;
    line("sixteen ticks: the seconds, BCD", image[STLED325_AT_REGISTERS + STLED325_REG_SECONDS], 0x01);
}

/* The host answers, sets the panel up and reads a key of the remote control. */
static void remote(uint8_t *image)
{
    uint8_t reply[4];

    line("READY high", stled325_ready(image, STLED325_IMAGE_LEN, 1), STLED325_ACCEPTED);
    line("configure: NEC, WAKE_UP counts",
         stled325_command(image, STLED325_IMAGE_LEN, configure, sizeof configure, reply, 0), STLED325_ACCEPTED);
    line("remote frame, command 45h of device 0",
         stled325_remote_frame(image, STLED325_IMAGE_LEN, 0xBA45FF00u), STLED325_ACCEPTED);
    line("remote frame with a wrong complement",
         stled325_remote_frame(image, STLED325_IMAGE_LEN, 0xBB45FF00u), STLED325_NO_KEY);
    line("read the remote key",
         stled325_command(image, STLED325_IMAGE_LEN, read_remote, sizeof read_remote, reply, sizeof reply), STLED325_ACCEPTED);
    line("  fresh", reply[0], 1);
    line("  its command", reply[2], 0x45);
    line("  the output beyond the reply", reply[3], STLED325_FILL);
}

/* A key is pressed, a digit shown. */
static void keys_and_digits(uint8_t *image)
{
    uint8_t digits[STLED325_DIGITS_LEN];

    line("key sample", stled325_key_sample(image, STLED325_IMAGE_LEN, 0x8000u), STLED325_ACCEPTED);
    line("key sample again", stled325_key_sample(image, STLED325_IMAGE_LEN, 0x8000u), STLED325_ACCEPTED);
    line("  the key store's high byte", image[STLED325_AT_KEY_STORE + 1], 0x80);

    line("display on", stled325_command(image, STLED325_IMAGE_LEN, display_on, sizeof display_on, digits, 0), STLED325_ACCEPTED);
    line("write digit 1", stled325_command(image, STLED325_IMAGE_LEN, digit, sizeof digit, digits, 0), STLED325_ACCEPTED);
    line("show", stled325_show(image, STLED325_IMAGE_LEN, digits, sizeof digits), STLED325_ACCEPTED);
    line("  digit 1", digits[0], 0x3F);
}

/* Standby, WAKE_UP, and two cuts of the supply. */
static void sleep_and_cut(uint8_t *image)
{
    uint8_t lines[STLED325_LINES_LEN];

    line("standby", stled325_command(image, STLED325_IMAGE_LEN, standby, sizeof standby, lines, 0), STLED325_ACCEPTED);
    line("a command in standby",
         stled325_command(image, STLED325_IMAGE_LEN, standby, sizeof standby, lines, 0), STLED325_IN_STANDBY);
    line("WAKE_UP high", stled325_wake_up(image, STLED325_IMAGE_LEN, 1), STLED325_ACCEPTED);
    line("lines", stled325_lines(image, STLED325_IMAGE_LEN, lines, sizeof lines), STLED325_ACCEPTED);
    line("  STBY low, MUTE low, IRQ asserted", lines[0], STLED325_LINE_IRQ);

    line("supply return after 60 seconds", stled325_supply_return(image, STLED325_IMAGE_LEN, 60), STLED325_ACCEPTED);
    line("  the minutes, BCD", image[STLED325_AT_REGISTERS + STLED325_REG_MINUTES], 0x01);
    line("supply return after a second more than the limit",
         stled325_supply_return(image, STLED325_IMAGE_LEN, STLED325_LONGEST_CUT + 1), STLED325_CUT_TOO_LONG);
}

int main(void)
{
    uint8_t image[STLED325_IMAGE_LEN];

    start(image);
    remote(image);
    keys_and_digits(image);
    sleep_and_cut(image);
    return wrong;
}
