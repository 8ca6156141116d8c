//! The image's offsets, the register addresses, the bits and the refusal numbers, named as in the C header.

/// Length of the lent image.
pub const IMAGE_LEN: usize = 64;

/// The image as the model works on it once its length is known.
pub type Image = [u8; IMAGE_LEN];

// Offsets in the image; the clock registers 00h..0Fh stand at their own address.
pub const SIXTEENTHS: usize = 16;
pub const FLAGS: usize = 17;
pub const INTERRUPT: usize = 18;
pub const PINS: usize = 19;
pub const CONFIGURATION: usize = 20;
pub const SETUP: usize = 21;
pub const GUARD_LEFT: usize = 22;
pub const WATCHDOG_LEFT: usize = 24;
pub const HOT_KEYS: usize = 26;
pub const LAST_SAMPLE: usize = 28;
pub const ACCEPTED_KEYS: usize = 30;
pub const KEY_STORE: usize = 32;
pub const REMOTE_FRESH: usize = 34;
pub const REMOTE_ADDRESS: usize = 35;
pub const REMOTE_COMMAND: usize = 36;
pub const DIGITS: usize = 37;
pub const DISPLAY_CONTROL: usize = 38;
pub const DIGIT_BYTES: usize = 39;
pub const UNUSED: usize = 44;

// Clock registers.
pub const RESERVED: usize = 0x00;
pub const SECONDS: usize = 0x01;
pub const MINUTES: usize = 0x02;
pub const HOURS: usize = 0x03;
pub const WEEKDAY: usize = 0x04;
pub const DATE: usize = 0x05;
pub const MONTH: usize = 0x06; // CB1, CB0, month
pub const YEAR: usize = 0x07;
pub const CALIBRATION: usize = 0x08;
pub const WATCHDOG: usize = 0x09;
pub const ALARM_MONTH: usize = 0x0A;
pub const ALARM_DATE: usize = 0x0B;
pub const ALARM_HOUR: usize = 0x0C;
pub const ALARM_MINUTE: usize = 0x0D;
pub const ALARM_SECOND: usize = 0x0E;
pub const ALARM_WEEKDAY: usize = 0x0F;

// Bits of the clock registers.
pub const OSC_ST: u8 = 0x80; // 01h
pub const MD_H: u8 = 0x80; // 03h
pub const M_MS: u8 = 0x40; // 03h
pub const TWELVE_HOURS: u8 = 0x80; // 08h, 12/24
pub const AFE: u8 = 0x80; // 0Ah
pub const ABE: u8 = 0x20; // 0Ah
pub const RPT4: u8 = 0x80; // 0Bh, date
pub const RPT5: u8 = 0x40; // 0Bh, month
pub const RPT3: u8 = 0x80; // 0Ch, hour
pub const RPT6: u8 = 0x40; // 0Ch, weekday
pub const RPT2: u8 = 0x80; // 0Dh, minute
pub const RPT1: u8 = 0x80; // 0Eh, second
pub const WDFEN: u8 = 0x80; // 0Fh

// Flags, byte 17.
pub const ALARM_FLAG: u8 = 0x01;
pub const WATCHDOG_FLAG: u8 = 0x02;

// Pins, byte 19.
pub const READY: u8 = 0x01;
pub const WAKE_UP: u8 = 0x02;
pub const STBY: u8 = 0x04;

// Configuration, byte 20.
pub const GUARD_STANDBY: u8 = 0x01; // b0
pub const ALL_HOT: u8 = 0x02; // b1
pub const REMOTE_WAKES: u8 = 0x04; // b2
pub const CLOCK_FACE: u8 = 0x08; // b3
pub const GIVES_DIGITS: u8 = 0x10; // b4 of the command, never kept
pub const WAKE_UP_COUNTS: u8 = 0x20; // b5

// Remote protocols, b6..b4 of byte 21.
pub const PROTOCOL_OFF: u8 = 0;
pub const RC5: u8 = 2;
pub const NEC: u8 = 4;

// Display control, byte 38.
pub const DISPLAY_ON: u8 = 0x10;

// Lines.
pub const LINE_STBY: u8 = 0x01;
pub const LINE_MUTE: u8 = 0x02;
pub const LINE_IRQ: u8 = 0x04;

/// Sixteenths of a second in a second.
pub const PER_SECOND: u16 = 16;

/// The longest cut that a supply return takes, in seconds.
pub const LONGEST_CUT: u32 = 31_622_400;

/// The numbers of the refusal table.
pub mod refusal {
    pub const ACCEPTED: u32 = 0;
    pub const BAD_IMAGE: u32 = 1;
    pub const NO_COMMAND: u32 = 2;
    pub const IN_STANDBY: u32 = 3;
    pub const UNKNOWN_COMMAND: u32 = 4;
    pub const TOO_SHORT: u32 = 5;
    pub const BAD_ADDRESS: u32 = 6;
    pub const BAD_PROTOCOL: u32 = 7;
    pub const BAD_DIGITS: u32 = 8;
    pub const BAD_CALENDAR: u32 = 9;
    pub const CUT_TOO_LONG: u32 = 10;
    pub const NO_KEY: u32 = 11;
    pub const BAD_BUFFER: u32 = 12;
}

/// A two-byte field of the image, low byte first.
pub fn word(image: &Image, at: usize) -> u16 {
    u16::from_le_bytes([image[at], image[at + 1]])
}

/// Writes a two-byte field of the image, low byte first.
pub fn set_word(image: &mut Image, at: usize, value: u16) {
    image[at..at + 2].copy_from_slice(&value.to_le_bytes());
}

/// True if any of the bits is set in the byte of the image.
pub fn has(image: &Image, at: usize, bits: u8) -> bool {
    image[at] & bits != 0
}
