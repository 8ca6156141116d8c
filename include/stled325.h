/*
 * stled325.h - the STLED325 front panel controller as a library.
 *
 * The library does what the chip does with commands, keys, remote, pins and
 * time, and answers what its registers, its digits and its lines STBY, MUTE and
 * IRQ would show. It keeps nothing of its own: the whole panel is one image of
 * 64 bytes that the board's program owns and lends to each call.
 *
 * A short start:
 *
 *     uint8_t image[STLED325_IMAGE_LEN];
 *     stled325_power_up(image, sizeof image);       once, at first power
 *     stled325_tick(image, sizeof image);           sixteen times a second
 *     stled325_ready(image, sizeof image, level);   at each change of READY
 *     stled325_key_sample(image, sizeof image, k);  at each scan of the keys
 *
 * THE GUARD. Power-up, supply return and whatever else ends standby load it
 * with its value in seconds, 10 for the first two; so does the configuration
 * command. Loaded with 0 it is stopped. With configuration b0, which power-up
 * and supply return set, standby begins at the guard's end unless READY rises
 * before; a READY that is high already stops nothing.
 *
 * EVERY CALL returns 0 if it was accepted, or else the number of the first
 * ground of refusal that holds, in the order of the numbers: a uint32_t, to be
 * compared with the enumerators of stled325_refusal (C++ does not convert it to
 * the enum). A refused call has written nothing: no byte of the image, no byte
 * of an output. Every call but power-up is refused by 1, before all else, if
 * the image is not 64 bytes long or not valid; below this is written short as
 * "Refused: 1".
 *
 * AN IMAGE IS VALID exactly if: the calendar is (fields BCD and in range, the
 * weekday 1 to 7, a date that its month has); reserved and unnamed bits and
 * bytes 44..63 are 0; sixteenths, fresh mark and digits are in the ranges given
 * below; the protocol is 0, 2 or 4; guard and watchdog have no more left than
 * their value and 09h load, the guard nothing in standby; the remote address is
 * 0, and its command too unless fresh. docs/PANEL.md has all rules by subject.
 *
 * WHAT THE CALLER OWES. The library checks every value it is given, but it
 * cannot check these; if they do not hold, nothing is promised:
 *   - no pointer is null, also where its length is 0;
 *   - each length is the true length of the buffer behind its pointer, or less;
 *   - the buffers of one call do not overlap one another;
 *   - no two calls use the same image at the same time: an interrupt routine
 *     that makes a call must not break into another call on that image;
 *   - nobody else writes into the image. Saving it, reading it and putting a
 *     saved copy back is fine. Damage on the way is refused by 1 only if the
 *     image is then not valid; other damage is not noticed. A program that
 *     keeps the image over a reset should store a checksum of its own with it.
 * A pointer needs no alignment.
 *
 * Numbers of two bytes lie in the image low byte first.
 */
#ifndef STLED325_H
#define STLED325_H

#include <stddef.h>
#include <stdint.h>

#ifdef __cplusplus
extern "C" {
#endif

/* ---- Return numbers ---------------------------------------------------- */

enum stled325_refusal {
    STLED325_ACCEPTED        = 0,
    STLED325_BAD_IMAGE       = 1,  /* image not 64 bytes or not valid         */
    STLED325_NO_COMMAND      = 2,  /* a command without a first byte          */
    STLED325_IN_STANDBY      = 3,  /* a command while STBY is high            */
    STLED325_UNKNOWN_COMMAND = 4,  /* first byte names no command             */
    STLED325_TOO_SHORT       = 5,  /* command or its output too short         */
    STLED325_BAD_ADDRESS     = 6,  /* address byte out of the command's range */
    STLED325_BAD_PROTOCOL    = 7,  /* remote protocol other than 0, 2, 4      */
    STLED325_BAD_DIGITS      = 8,  /* number of digits not 1 to 5             */
    STLED325_BAD_CALENDAR    = 9,  /* registers would hold no valid calendar  */
    STLED325_CUT_TOO_LONG    = 10, /* more than STLED325_LONGEST_CUT seconds  */
    STLED325_NO_KEY          = 11, /* no key in the protocol that is set      */
    STLED325_BAD_BUFFER      = 12  /* show or lines buffer of a wrong length  */
};

/* ---- Sizes and limits -------------------------------------------------- */

#define STLED325_IMAGE_LEN        64         /* bytes of an image          */
#define STLED325_DIGITS_LEN       5          /* bytes that show writes     */
#define STLED325_LINES_LEN        1          /* bytes that lines writes    */
#define STLED325_TICKS_PER_SECOND 16         /* a tick is 1/16 of a second */
#define STLED325_LONGEST_CUT      31622400UL /* seconds, 366 days          */

/* ---- The image: where things stand in it (to look at, not to write) ---- */

#define STLED325_AT_REGISTERS       0  /* 16 bytes, clock registers 00h..0Fh  */
#define STLED325_AT_SIXTEENTHS      16 /* 0..15, of the running second        */
#define STLED325_AT_FLAGS           17 /* STLED325_..._FLAG                   */
#define STLED325_AT_INTERRUPT       18 /* STLED325_INT_...                    */
#define STLED325_AT_PINS            19 /* STLED325_PIN_...                    */
#define STLED325_AT_CONFIGURATION   20 /* STLED325_CFG_..., b4 always 0       */
#define STLED325_AT_SETUP           21 /* protocol b6..b4, guard value b3..b0 */
#define STLED325_AT_GUARD_LEFT      22 /* 2 bytes, sixteenths, 0: not running */
#define STLED325_AT_WATCHDOG_LEFT   24 /* 2 bytes, sixteenths, 0: not running */
#define STLED325_AT_HOT_KEYS        26 /* 2 bytes, mask of hot keys           */
#define STLED325_AT_LAST_SAMPLE     28 /* 2 bytes                             */
#define STLED325_AT_ACCEPTED_KEYS   30 /* 2 bytes                             */
#define STLED325_AT_KEY_STORE       32 /* 2 bytes, presses not read yet       */
#define STLED325_AT_REMOTE_FRESH    34 /* 1 if a remote key is unread, else 0 */
#define STLED325_AT_REMOTE_ADDRESS  35 /* always 0                            */
#define STLED325_AT_REMOTE_COMMAND  36 /* command of the unread remote key    */
#define STLED325_AT_DIGITS          37 /* digits in use, 1..5                 */
#define STLED325_AT_DISPLAY_CONTROL 38 /* on/off and brightness               */
#define STLED325_AT_DIGIT_BYTES     39 /* 5 bytes                             */
#define STLED325_AT_UNUSED          44 /* 20 bytes, all 0                     */

/* Flags */
#define STLED325_ALARM_FLAG    0x01u
#define STLED325_WATCHDOG_FLAG 0x02u

/* Interrupt byte: the upper four bits are set while STBY is low,
   the lower four by what wakes the panel from standby. */
#define STLED325_INT_KEY          0x80u
#define STLED325_INT_REMOTE       0x40u
#define STLED325_INT_WAKE_UP      0x20u
#define STLED325_INT_RTC          0x10u
#define STLED325_INT_STBY_KEY     0x08u
#define STLED325_INT_STBY_REMOTE  0x04u
#define STLED325_INT_STBY_WAKE_UP 0x02u
#define STLED325_INT_STBY_RTC     0x01u

/* Pins as kept in the image */
#define STLED325_PIN_READY   0x01u
#define STLED325_PIN_WAKE_UP 0x02u
#define STLED325_PIN_STBY    0x04u

/* The byte that stled325_lines writes */
#define STLED325_LINE_STBY 0x01u /* STBY is high: the main board is off */
#define STLED325_LINE_MUTE 0x02u /* MUTE is high: READY is low          */
#define STLED325_LINE_IRQ  0x04u /* IRQ is asserted                     */

/* ---- Clock registers, BCD ---------------------------------------------- */

#define STLED325_REG_RESERVED      0x00u
#define STLED325_REG_SECONDS       0x01u /* OSC_ST, seconds 00-59            */
#define STLED325_REG_MINUTES       0x02u /* minutes 00-59                    */
#define STLED325_REG_HOURS         0x03u /* MD_H, M_MS, hours 00-23          */
#define STLED325_REG_WEEKDAY       0x04u /* weekday 1-7; which day is 1 is   */
                                         /* yours (power-up fits 1 = Sunday) */
#define STLED325_REG_DATE          0x05u /* date 01-31                       */
#define STLED325_REG_MONTH         0x06u /* CB1, CB0, month 01-12            */
#define STLED325_REG_YEAR          0x07u /* year 00-99                       */
#define STLED325_REG_CALIBRATION   0x08u /* 12/24, Cal_sign, calibration     */
#define STLED325_REG_WATCHDOG      0x09u /* RB2, BMB4..BMB0, RB1, RB0        */
#define STLED325_REG_ALARM_MONTH   0x0Au /* AFE, ABE, alarm month            */
#define STLED325_REG_ALARM_DATE    0x0Bu /* RPT4, RPT5, alarm date           */
#define STLED325_REG_ALARM_HOUR    0x0Cu /* RPT3, RPT6, alarm hour           */
#define STLED325_REG_ALARM_MINUTE  0x0Du /* RPT2, alarm minute               */
#define STLED325_REG_ALARM_SECOND  0x0Eu /* RPT1, alarm second               */
#define STLED325_REG_ALARM_WEEKDAY 0x0Fu /* WDFEn, alarm weekday in b6..b4   */

/* Century 0 is 20xx. In every century a year whose two digits divide by 4 is a
   leap year, so the calendar is the world's until 28 February 2100.

   An alarm every day at 07:30:00, also over a supply cut: write
       AFE | ABE,  RPT4 | RPT5,  RPT6 | 07h,  30h,  00h
   from 0Ah on. Alarm fields are BCD and are not checked: one that is no
   possible time is stored and never matches. */
#define STLED325_OSC_ST       0x80u /* 01h: the oscillator is stopped        */
#define STLED325_MD_H         0x80u /* 03h: the face shows month and date    */
#define STLED325_M_MS         0x40u /* 03h: ... minutes and seconds          */
#define STLED325_CB           0xC0u /* 06h: century 0-3, in b7 and b6        */
#define STLED325_TWELVE_HOURS 0x80u /* 08h: 12/24, the face shows hours 1-12 */
#define STLED325_CAL_SIGN     0x20u /* 08h: calibration's sign, stored only  */
#define STLED325_RB2          0x80u /* 09h: watchdog resolution, high bit    */
#define STLED325_BMB          0x7Cu /* 09h: watchdog multiplier              */
#define STLED325_RB1          0x02u /* 09h: resolution, middle bit           */
#define STLED325_RB0          0x01u /* 09h: resolution, low bit              */
#define STLED325_AFE          0x80u /* 0Ah: a match raises the alarm flag    */
#define STLED325_ABE          0x20u /* 0Ah: ... also over a supply cut       */
#define STLED325_RPT4         0x80u /* 0Bh: the date is not compared         */
#define STLED325_RPT5         0x40u /* 0Bh: the month is not compared        */
#define STLED325_RPT3         0x80u /* 0Ch: the hour is not compared         */
#define STLED325_RPT6         0x40u /* 0Ch: the weekday is not compared      */
#define STLED325_RPT2         0x80u /* 0Dh: the minute is not compared       */
#define STLED325_RPT1         0x80u /* 0Eh: the second is not compared       */
#define STLED325_WDFEN        0x80u /* 0Fh: watchdog's end raises its flag   */

/* ---- Commands ---------------------------------------------------------- */

#define STLED325_CMD_CONFIGURE       0x00u /* | STLED325_CFG_..., then set-up */
#define STLED325_CMD_WRITE_DIGITS    0x40u /* address 10h..14h, data          */
#define STLED325_CMD_WRITE_REGISTERS 0x50u /* address 01h..0Fh, data          */
#define STLED325_CMD_READ_KEYS       0x61u /* replies 2 bytes                 */
#define STLED325_CMD_READ_REMOTE     0x62u /* replies 3 bytes                 */
#define STLED325_CMD_READ_INTERRUPTS 0x63u /* replies 2 bytes                 */
#define STLED325_CMD_READ_REGISTERS  0x70u /* address 00h..0Fh                */
#define STLED325_CMD_SET_DISPLAY     0x80u /* | on, | brightness 0..15        */
#define STLED325_CMD_SET_HOT_KEYS    0xA0u /* mask, low byte first            */
#define STLED325_CMD_STANDBY         0xC1u
#define STLED325_CMD_RELOAD_GUARD    0xC2u

/* Configuration bits, or-ed into STLED325_CMD_CONFIGURE */
#define STLED325_CFG_GUARD_STANDBY  0x01u /* b0: guard's end begins standby  */
#define STLED325_CFG_ALL_HOT        0x02u /* b1: every key is hot            */
#define STLED325_CFG_REMOTE_WAKES   0x04u /* b2: a remote key ends standby   */
#define STLED325_CFG_CLOCK_FACE     0x08u /* b3: the clock is shown          */
#define STLED325_CFG_GIVES_DIGITS   0x10u /* b4: third byte gives the digits */
#define STLED325_CFG_WAKE_UP_COUNTS 0x20u /* b5: a rise of WAKE_UP counts    */

/* Remote protocols for the set-up byte, or-ed with the guard value 0..15 */
#define STLED325_PROTOCOL_OFF 0x00u
#define STLED325_PROTOCOL_RC5 0x20u
#define STLED325_PROTOCOL_NEC 0x40u

#define STLED325_DIGIT_1    0x10u /* address of digit 1; digit 5 is 14h  */
#define STLED325_DISPLAY_ON 0x10u /* or-ed into STLED325_CMD_SET_DISPLAY */
#define STLED325_POINT      0x80u /* segment bit of the point            */
#define STLED325_FILL       0xFFu /* output bytes beyond a reply         */

/* ---- The calls --------------------------------------------------------- */

/*
 * First power. Overwrites the image, whatever it held, with the panel's start:
 * clock at 1 January of century 0, year 00, 00:00:00, weekday 7, running;
 * STBY, READY and WAKE_UP low; five digits; guard of 10 seconds running, with
 * the guard's end beginning standby. All else is 0: 24-hour form, no alarm,
 * watchdog off, display off, no remote protocol, no hot key, nothing unread.
 *
 * Refused: 1 if image_len is not 64.
 */
uint32_t stled325_power_up(uint8_t *image, size_t image_len);

/*
 * A sixteenth of a second has passed. Three steps, in this order:
 *   1. the clock moves on, unless OSC_ST is set; a second that matches the
 *      alarm sets the alarm flag and is an RTC event if AFE is set;
 *   2. a running watchdog falls, unless OSC_ST is set; its end sets its flag
 *      and is an RTC event if WDFEn is set;
 *   3. a running guard falls; with configuration b0 its end begins standby.
 * An RTC event sets STLED325_INT_RTC, or in standby STLED325_INT_STBY_RTC, and
 * ends standby; every match is an event, also while the flag is still up.
 *
 * Refused: 1.
 */
uint32_t stled325_tick(uint8_t *image, size_t image_len);

/*
 * A command as the host would send it over the bus. bytes[0] names it; bytes
 * beyond those it needs are ignored. Reading commands write their reply into
 * out and fill the rest of out with FFh; all others leave out untouched (it
 * must still not be null; out_len may be 0).
 *
 *   00xxxxxx, setup      Configure: bits b5..b0 are STLED325_CFG_...; setup is
 *     [, digits]         a protocol | a guard value in seconds, b7 ignored.
 *                        Loads the guard with that value, 0 stops it. With
 *                        STLED325_CFG_GIVES_DIGITS the third byte is the number
 *                        of digits; a changed number turns the display off.
 *   40h, a, data...      Digit bytes from address a on, surplus data ignored.
 *   50h, a, data...      Clock registers from address a on, surplus data
 *                        ignored, reserved bits dropped. All or nothing: the
 *                        calendar is judged as it stands after the whole write.
 *                        Any data byte for 01h..07h restarts the second; any
 *                        data byte for 09h reloads the watchdog.
 *   61h                  Replies the key store, 2 bytes, low byte first, and
 *                        clears it. Bits 2k and 2k+1 are KEY1 and KEY2 on
 *                        KS(k+1).
 *   62h                  Replies fresh, address, command of the remote key,
 *                        3 bytes, and clears them; all 0 if none is fresh.
 *   63h                  Replies 2 bytes, the interrupt byte and behind it the
 *                        flags, and clears them.
 *   70h, a               Replies registers a..0Fh, as many as out holds.
 *   100xxxxx             Display: b4 on, b3..b0 brightness.
 *   A0h, low, high       Mask of the hot keys.
 *   C1h                  Standby begins. What ends it: an accepted hot key, a
 *                        remote key with configuration b2, WAKE_UP rising with
 *                        b5, an alarm or a watchdog event, power-up, supply
 *                        return; no command does, nor does READY. Whatever
 *                        ends it loads the guard.
 *   C2h                  Reloads the guard if it is running.
 *
 * Refused: 1; 2 if bytes_len is 0; 3 in standby; 4 for any other first byte;
 * 5 if a needed byte is missing (for 40h and 50h also if no data follow) or
 * out is shorter than the reply of 61h, 62h, 63h; 6 if a is not 10h..14h for
 * 40h, 01h..0Fh for 50h, 00h..0Fh for 70h; 7 if the protocol in setup is not
 * 0, 2 or 4; 8 if digits is not 1 to 5; 9 if after a 50h a field of the
 * calendar were not BCD or out of range, the weekday among them, or the date
 * did not exist in its month.
 */
uint32_t stled325_command(uint8_t *image, size_t image_len,
                          const uint8_t *bytes, size_t bytes_len,
                          uint8_t *out, size_t out_len);

/*
 * A scan of the sixteen keys, a 1 for each key that is down. A sample counts
 * once it has come twice running. Keys down now and not in the sample accepted
 * before are new presses: they join the key store and set STLED325_INT_KEY. In
 * standby only hot keys do so (those of the mask, or all with configuration
 * b1); they set STLED325_INT_STBY_KEY and end standby.
 *
 * Refused: 1.
 */
uint32_t stled325_key_sample(uint8_t *image, size_t image_len, uint16_t sample);

/*
 * A frame of the remote control. NEC: first received byte lowest, address 00h,
 * FFh, command, its complement. RC-5: bits 13 and 12 set, bit 11 the toggle,
 * bits 10..6 the address, which must be 0, bits 5..0 the command, all higher
 * bits 0. A key is stored, also over an unread one, and sets
 * STLED325_INT_REMOTE; in standby it sets STLED325_INT_STBY_REMOTE and ends
 * standby with configuration b2, and is only stored without it.
 *
 * Refused: 1; 11 if the frame is no key for device address 0 in the set
 * protocol; with protocol 0 every frame is refused.
 */
uint32_t stled325_remote_frame(uint8_t *image, size_t image_len,
                               uint32_t frame);

/*
 * The level of the READY pin: 0 is low, all other numbers are high. Only a
 * change does anything. A rise stops the guard and does not end standby. A fall
 * begins standby. MUTE is always the inverse of READY.
 *
 * Refused: 1.
 */
uint32_t stled325_ready(uint8_t *image, size_t image_len, uint32_t level);

/*
 * The level of the WAKE_UP pin: 0 is low, all other numbers are high. Only a
 * change does anything. With configuration b5 a rise sets STLED325_INT_WAKE_UP,
 * or in standby STLED325_INT_STBY_WAKE_UP and ends standby.
 *
 * Refused: 1.
 */
uint32_t stled325_wake_up(uint8_t *image, size_t image_len, uint32_t level);

/*
 * The supply is back after a cut of so many whole seconds, during which no tick
 * was given. As power-up, but the clock registers, the flags and the sixteenths
 * are kept. Unless OSC_ST is set the clock moves on by the cut, and with AFE
 * and ABE both set the alarm flag rises if any second reached in it, its last
 * one among them and its start not, matches the alarm. The interrupt byte is
 * then STLED325_INT_RTC if the alarm flag is up, and 0 if it is not. The
 * watchdog is off until register 09h is written again.
 *
 * Refused: 1; 10 if seconds is above STLED325_LONGEST_CUT.
 */
uint32_t stled325_supply_return(uint8_t *image, size_t image_len,
                                uint32_t seconds);

/*
 * Writes the segments of digits 1 to 5, b0 segment a to b6 segment g, b7 the
 * point. All 0 while the display is off, and in standby without configuration
 * b3. With b3 and at least four digits the clock: month and date with MD_H,
 * else minutes and seconds with M_MS, else hours and minutes, on digits 1 to 4
 * with the point on digit 2, digit 5 blank. A leading zero is blank only in
 * hours of the 12-hour form, 1 to 12 with nothing for the afternoon. Otherwise
 * the digit bytes, those not in use 0. The image is not changed.
 *
 * Refused: 1; 12 if digits_len is not 5.
 */
uint32_t stled325_show(const uint8_t *image, size_t image_len,
                       uint8_t *digits, size_t digits_len);

/*
 * Writes one byte of STLED325_LINE_...: STBY, MUTE, and IRQ, which is asserted
 * while any interrupt bit is set, the panel awake and READY high. The image is
 * not changed.
 *
 * Refused: 1; 12 if lines_len is not 1.
 */
uint32_t stled325_lines(const uint8_t *image, size_t image_len,
                        uint8_t *lines, size_t lines_len);

#ifdef __cplusplus
}
#endif

#endif /* STLED325_H */
