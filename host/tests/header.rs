//! The C header's numbers against the model's, so that both name the same bits and places.

mod numbers;

use stled325_host::model::names::*;

use numbers::{defines, enumerators};

/// The refusal numbers, the longest cut and the ticks of a second.
const NUMBERS: &[(&str, u32)] = &[
    ("ACCEPTED", refusal::ACCEPTED),
    ("BAD_IMAGE", refusal::BAD_IMAGE),
    ("NO_COMMAND", refusal::NO_COMMAND),
    ("IN_STANDBY", refusal::IN_STANDBY),
    ("UNKNOWN_COMMAND", refusal::UNKNOWN_COMMAND),
    ("TOO_SHORT", refusal::TOO_SHORT),
    ("BAD_ADDRESS", refusal::BAD_ADDRESS),
    ("BAD_PROTOCOL", refusal::BAD_PROTOCOL),
    ("BAD_DIGITS", refusal::BAD_DIGITS),
    ("BAD_CALENDAR", refusal::BAD_CALENDAR),
    ("CUT_TOO_LONG", refusal::CUT_TOO_LONG),
    ("NO_KEY", refusal::NO_KEY),
    ("BAD_BUFFER", refusal::BAD_BUFFER),
    ("LONGEST_CUT", LONGEST_CUT),
    ("TICKS_PER_SECOND", PER_SECOND as u32),
];

/// Lengths, offsets in the image and register addresses.
const PLACES: &[(&str, usize)] = &[
    ("IMAGE_LEN", IMAGE_LEN),
    ("DIGITS_LEN", 5),
    ("LINES_LEN", 1),
    ("AT_REGISTERS", 0),
    ("AT_SIXTEENTHS", SIXTEENTHS),
    ("AT_FLAGS", FLAGS),
    ("AT_INTERRUPT", INTERRUPT),
    ("AT_PINS", PINS),
    ("AT_CONFIGURATION", CONFIGURATION),
    ("AT_SETUP", SETUP),
    ("AT_GUARD_LEFT", GUARD_LEFT),
    ("AT_WATCHDOG_LEFT", WATCHDOG_LEFT),
    ("AT_HOT_KEYS", HOT_KEYS),
    ("AT_LAST_SAMPLE", LAST_SAMPLE),
    ("AT_ACCEPTED_KEYS", ACCEPTED_KEYS),
    ("AT_KEY_STORE", KEY_STORE),
    ("AT_REMOTE_FRESH", REMOTE_FRESH),
    ("AT_REMOTE_ADDRESS", REMOTE_ADDRESS),
    ("AT_REMOTE_COMMAND", REMOTE_COMMAND),
    ("AT_DIGITS", DIGITS),
    ("AT_DISPLAY_CONTROL", DISPLAY_CONTROL),
    ("AT_DIGIT_BYTES", DIGIT_BYTES),
    ("AT_UNUSED", UNUSED),
    ("REG_RESERVED", RESERVED),
    ("REG_SECONDS", SECONDS),
    ("REG_MINUTES", MINUTES),
    ("REG_HOURS", HOURS),
    ("REG_WEEKDAY", WEEKDAY),
    ("REG_DATE", DATE),
    ("REG_MONTH", MONTH),
    ("REG_YEAR", YEAR),
    ("REG_CALIBRATION", CALIBRATION),
    ("REG_WATCHDOG", WATCHDOG),
    ("REG_ALARM_MONTH", ALARM_MONTH),
    ("REG_ALARM_DATE", ALARM_DATE),
    ("REG_ALARM_HOUR", ALARM_HOUR),
    ("REG_ALARM_MINUTE", ALARM_MINUTE),
    ("REG_ALARM_SECOND", ALARM_SECOND),
    ("REG_ALARM_WEEKDAY", ALARM_WEEKDAY),
];

/// Bits, masks and command codes.
const BYTES: &[(&str, u8)] = &[
    ("ALARM_FLAG", ALARM_FLAG),
    ("WATCHDOG_FLAG", WATCHDOG_FLAG),
    ("INT_KEY", 0x80),
    ("INT_REMOTE", 0x40),
    ("INT_WAKE_UP", 0x20),
    ("INT_RTC", 0x10),
    ("INT_STBY_KEY", 0x08),
    ("INT_STBY_REMOTE", 0x04),
    ("INT_STBY_WAKE_UP", 0x02),
    ("INT_STBY_RTC", 0x01),
    ("PIN_READY", READY),
    ("PIN_WAKE_UP", WAKE_UP),
    ("PIN_STBY", STBY),
    ("LINE_STBY", LINE_STBY),
    ("LINE_MUTE", LINE_MUTE),
    ("LINE_IRQ", LINE_IRQ),
    ("OSC_ST", OSC_ST),
    ("MD_H", MD_H),
    ("M_MS", M_MS),
    ("CB", 0xC0),
    ("TWELVE_HOURS", TWELVE_HOURS),
    ("CAL_SIGN", 0x20),
    ("RB2", 0x80),
    ("BMB", 0x7C),
    ("RB1", 0x02),
    ("RB0", 0x01),
    ("AFE", AFE),
    ("ABE", ABE),
    ("RPT1", RPT1),
    ("RPT2", RPT2),
    ("RPT3", RPT3),
    ("RPT4", RPT4),
    ("RPT5", RPT5),
    ("RPT6", RPT6),
    ("WDFEN", WDFEN),
    ("CMD_CONFIGURE", 0x00),
    ("CMD_WRITE_DIGITS", 0x40),
    ("CMD_WRITE_REGISTERS", 0x50),
    ("CMD_READ_KEYS", 0x61),
    ("CMD_READ_REMOTE", 0x62),
    ("CMD_READ_INTERRUPTS", 0x63),
    ("CMD_READ_REGISTERS", 0x70),
    ("CMD_SET_DISPLAY", 0x80),
    ("CMD_SET_HOT_KEYS", 0xA0),
    ("CMD_STANDBY", 0xC1),
    ("CMD_RELOAD_GUARD", 0xC2),
    ("CFG_GUARD_STANDBY", GUARD_STANDBY),
    ("CFG_ALL_HOT", ALL_HOT),
    ("CFG_REMOTE_WAKES", REMOTE_WAKES),
    ("CFG_CLOCK_FACE", CLOCK_FACE),
    ("CFG_GIVES_DIGITS", GIVES_DIGITS),
    ("CFG_WAKE_UP_COUNTS", WAKE_UP_COUNTS),
    ("PROTOCOL_OFF", PROTOCOL_OFF << 4),
    ("PROTOCOL_RC5", RC5 << 4),
    ("PROTOCOL_NEC", NEC << 4),
    ("DIGIT_1", 0x10),
    ("DISPLAY_ON", DISPLAY_ON),
    ("POINT", 0x80),
    ("FILL", 0xFF),
];

#[test]
fn the_header_names_the_same_numbers() {
    let mut header = defines();
    for (name, number) in enumerators() {
        assert!(header.insert(name, number).is_none(), "{name} is defined twice");
    }
    let places = PLACES.iter().map(|&(name, place)| (name, place as u32));
    let bytes = BYTES.iter().map(|&(name, byte)| (name, u32::from(byte)));
    for (name, number) in NUMBERS.iter().copied().chain(places).chain(bytes) {
        assert_eq!(header.remove(name), Some(number), "STLED325_{name}");
    }
    assert!(header.is_empty(), "numbers of the header that nobody compares: {header:?}");
}
