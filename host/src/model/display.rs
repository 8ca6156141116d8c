//! What is seen from outside: the five digit bytes and the three lines.

use super::fault::Fault;
use super::names::*;
use super::standby::in_standby;
use super::Model;

/// The segments of a numeral, or of the dash for a nibble above 9.
fn font(nibble: u8) -> u8 {
    const FONT: [u8; 10] = [0x3F, 0x06, 0x5B, 0x4F, 0x66, 0x6D, 0x7D, 0x07, 0x7F, 0x6F];
    FONT.get(usize::from(nibble)).copied().unwrap_or(0x40)
}

/// The decimal point of a digit.
const POINT: u8 = 0x80;

impl Model {
    /// An hour byte's tens and units in 12-hour form.
    fn twelve_hours(&self, hour: u8) -> (u8, u8) {
        let number = hour / 16 * 10 + hour % 16;
        let shown = match number % 12 {
            0 if self.has(Fault::TwelveShownAsZero) => 0,
            0 => 12,
            other => other,
        };
        let tens = if shown >= 10 { font(1) } else { 0 };
        let tens = if self.has(Fault::LeadingZeroShown) { font(shown / 10) } else { tens };
        (tens, font(shown % 10))
    }

    /// The clock face on digits 1 to 4, digit 5 blank.
    fn face(&self, image: &Image) -> [u8; 5] {
        let both = |byte: u8| (font(byte >> 4), font(byte & 0x0F));
        let (left, right) = if has(image, HOURS, MD_H) {
            (both(image[MONTH] & 0x1F), both(image[DATE]))
        } else if has(image, HOURS, M_MS) {
            (both(image[MINUTES]), both(image[SECONDS] & 0x7F))
        } else {
            let hour = image[HOURS] & 0x3F;
            let twelve = has(image, CALIBRATION, TWELVE_HOURS);
            (if twelve { self.twelve_hours(hour) } else { both(hour) }, both(image[MINUTES]))
        };
        [left.0, left.1 | POINT, right.0, right.1, 0]
    }

    pub(super) fn shown(&self, image: &Image) -> [u8; 5] {
        let asked = has(image, CONFIGURATION, CLOCK_FACE);
        let enough = image[DIGITS] >= 4;
        if !has(image, DISPLAY_CONTROL, DISPLAY_ON) || in_standby(image) && !asked {
            return [0; 5];
        }
        if self.has(Fault::FewDigitsDark) && in_standby(image) && !enough {
            return [0; 5];
        }
        let awake_face = in_standby(image) || !self.has(Fault::FaceInStandbyOnly);
        if asked && enough && awake_face {
            return self.face(image);
        }
        let mut digits = [0; 5];
        let used = usize::from(image[DIGITS]);
        digits[..used].copy_from_slice(&image[DIGIT_BYTES..DIGIT_BYTES + used]);
        digits
    }

    pub(super) fn lines_of(&self, image: &Image) -> u8 {
        let standby = in_standby(image);
        let ready = has(image, PINS, READY);
        let counted = if self.has(Fault::IrqUpperHalf) { 0xF0 } else { 0xFF };
        let irq = !standby && ready && has(image, INTERRUPT, counted);
        let line = |on: bool, bit: u8| if on { bit } else { 0 };
        line(standby, LINE_STBY) | line(!ready, LINE_MUTE) | line(irq, LINE_IRQ)
    }
}
