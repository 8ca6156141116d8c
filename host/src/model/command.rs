//! Commands: the grounds of refusal 2 to 9 in the table's order, and what each accepted command does.

use super::fault::Fault;
use super::names::*;
use super::registers::{calendar_valid, watchdog_load, KEPT};
use super::standby::{begin_standby, in_standby};
use super::valid::guard_load;
use super::Model;

/// The commands that are listed.
#[derive(Clone, Copy, Debug, PartialEq, Eq)]
pub enum Command {
    Configure,
    WriteDigits,
    WriteRegisters,
    ReadKeys,
    ReadRemote,
    ReadInterrupts,
    ReadRegisters,
    SetDisplay,
    SetHotKeys,
    Standby,
    ReloadGuard,
}

use Command::*;

impl Command {
    /// The command that a first byte names, if it is listed.
    pub fn of_byte(byte: u8) -> Option<Command> {
        Some(match byte {
            0x00..=0x3F => Configure,
            0x40 => WriteDigits,
            0x50 => WriteRegisters,
            0x61 => ReadKeys,
            0x62 => ReadRemote,
            0x63 => ReadInterrupts,
            0x70 => ReadRegisters,
            0x80..=0x9F => SetDisplay,
            0xA0 => SetHotKeys,
            0xC1 => Standby,
            0xC2 => ReloadGuard,
            _ => return None,
        })
    }

    /// The bytes it needs, its own first byte among them.
    fn length(self, first: u8) -> usize {
        match self {
            Configure if first & GIVES_DIGITS != 0 => 3,
            Configure | ReadRegisters => 2,
            WriteDigits | WriteRegisters | SetHotKeys => 3,
            ReadKeys | ReadRemote | ReadInterrupts | SetDisplay | Standby | ReloadGuard => 1,
        }
    }

    /// The output it needs.
    fn output(self) -> usize {
        match self {
            ReadKeys | ReadInterrupts => 2,
            ReadRemote => 3,
            _ => 0,
        }
    }

    /// The addresses it takes, if it takes one.
    fn addresses(self) -> Option<std::ops::RangeInclusive<u8>> {
        match self {
            WriteDigits => Some(0x10..=0x14),
            WriteRegisters => Some(0x01..=0x0F),
            ReadRegisters => Some(0x00..=0x0F),
            _ => None,
        }
    }
}

fn protocol_listed(setup: u8) -> bool {
    matches!(setup >> 4 & 0x07, PROTOCOL_OFF | RC5 | NEC)
}

impl Model {
    /// The registers as they would stand after the data bytes have gone in from the address on.
    fn written(&self, image: &Image, address: usize, data: &[u8]) -> [u8; 16] {
        let mut registers: [u8; 16] = image[..16].try_into().expect("sixteen registers");
        for (at, &byte) in (address..16).zip(data) {
            registers[at] = byte & KEPT[at];
        }
        if self.has(Fault::WriteWraps) {
            for (at, &byte) in (0..address).zip(data.iter().skip(16 - address)) {
                registers[at] = byte & KEPT[at];
            }
        }
        registers
    }

    /// True if the write would leave no valid calendar.
    fn write_spoils(&self, image: &Image, address: usize, data: &[u8]) -> bool {
        if self.has(Fault::CheckedByteByByte) {
            return (1..=data.len())
                .any(|count| !calendar_valid(&self.written(image, address, &data[..count])));
        }
        if self.has(Fault::ReservedJudged) && (address..16).zip(data).any(|(at, byte)| byte & !KEPT[at] != 0)
        {
            return true;
        }
        !calendar_valid(&self.written(image, address, data))
    }

    /// The number of the first ground of refusal that holds, the image being valid.
    pub(super) fn command_refusal(&self, image: &Image, bytes: &[u8], out_len: usize) -> u32 {
        let Some(&first) = bytes.first() else {
            return refusal::NO_COMMAND;
        };
        let listed = Command::of_byte(first);
        if self.has(Fault::ThreeAfterFour) && listed.is_none() {
            return refusal::UNKNOWN_COMMAND;
        }
        if in_standby(image) {
            return refusal::IN_STANDBY;
        }
        let Some(command) = listed else {
            return refusal::UNKNOWN_COMMAND;
        };
        let address_wrong = match (command.addresses(), bytes.get(1)) {
            (Some(addresses), Some(address)) => !addresses.contains(address),
            _ => false,
        };
        if self.has(Fault::SixBeforeFive) && address_wrong {
            return refusal::BAD_ADDRESS;
        }
        if bytes.len() < command.length(first) || out_len < command.output() {
            return refusal::TOO_SHORT;
        }
        if address_wrong {
            return refusal::BAD_ADDRESS;
        }
        if command == Configure && !protocol_listed(bytes[1]) {
            return refusal::BAD_PROTOCOL;
        }
        if command == Configure && first & GIVES_DIGITS != 0 && !(1..=5).contains(&bytes[2]) {
            return refusal::BAD_DIGITS;
        }
        if command == WriteRegisters && self.write_spoils(image, usize::from(bytes[1]), &bytes[2..]) {
            return refusal::BAD_CALENDAR;
        }
        refusal::ACCEPTED
    }

    /// Does an accepted command.
    pub(super) fn do_command(&self, image: &mut Image, bytes: &[u8], out: &mut [u8]) {
        let first = bytes[0];
        match Command::of_byte(first).expect("an accepted command is listed") {
            Configure => self.configure(image, bytes),
            WriteDigits => {
                let from = usize::from(bytes[1] - 0x10);
                for (place, &byte) in (from..5).zip(&bytes[2..]) {
                    image[DIGIT_BYTES + place] = byte;
                }
            }
            WriteRegisters => self.write_registers(image, usize::from(bytes[1]), &bytes[2..]),
            ReadKeys => self.reply_and_clear(image, KEY_STORE..KEY_STORE + 2, out),
            ReadRemote => self.reply_and_clear(image, REMOTE_FRESH..REMOTE_FRESH + 3, out),
            ReadInterrupts => {
                let (interrupt, flags) = (image[INTERRUPT], image[FLAGS]);
                let exchanged = self.has(Fault::InterruptExchanged);
                self.reply(&if exchanged { [flags, interrupt] } else { [interrupt, flags] }, out);
                image[INTERRUPT] = 0;
                if !self.has(Fault::FlagsKept) {
                    image[FLAGS] = 0;
                }
            }
            ReadRegisters => self.reply(&image[usize::from(bytes[1])..16], out),
            SetDisplay => image[DISPLAY_CONTROL] = first & 0x1F,
            SetHotKeys => image[HOT_KEYS..HOT_KEYS + 2].copy_from_slice(&bytes[1..3]),
            Standby => begin_standby(image),
            ReloadGuard => {
                if word(image, GUARD_LEFT) != 0 || self.has(Fault::ReloadStartsGuard) {
                    set_word(image, GUARD_LEFT, guard_load(image));
                }
            }
        }
    }

    fn configure(&self, image: &mut Image, bytes: &[u8]) {
        let kept = if self.has(Fault::ConfigurationB4Kept) { 0x3F } else { 0x2F };
        image[CONFIGURATION] = bytes[0] & kept;
        image[SETUP] = bytes[1] & 0x7F;
        set_word(image, GUARD_LEFT, guard_load(image));
        if bytes[0] & GIVES_DIGITS != 0 {
            if bytes[2] != image[DIGITS] || self.has(Fault::DisplayOffAlways) {
                image[DISPLAY_CONTROL] &= if self.has(Fault::BrightnessLost) { 0 } else { !DISPLAY_ON };
            }
            image[DIGITS] = bytes[2];
        }
    }

    fn write_registers(&self, image: &mut Image, address: usize, data: &[u8]) {
        let before = image[WATCHDOG];
        let registers = self.written(image, address, data);
        image[..16].copy_from_slice(&registers);
        let end = (address + data.len()).min(16);
        let touched = address..end;
        if touched.start <= YEAR && !self.has(Fault::SixteenthsNotZeroed) {
            image[SIXTEENTHS] = 0;
        }
        let spared = self.has(Fault::ReloadOnChangeOnly) && before == image[WATCHDOG];
        if touched.contains(&WATCHDOG) && !spared {
            set_word(image, WATCHDOG_LEFT, watchdog_load(image[WATCHDOG]));
        }
    }

    /// Writes a reply as far as the output holds it, and FFh beyond.
    fn reply(&self, reply: &[u8], out: &mut [u8]) {
        if !self.has(Fault::NotFilled) {
            out.fill(0xFF);
        }
        let length = reply.len().min(out.len());
        out[..length].copy_from_slice(&reply[..length]);
    }

    fn reply_and_clear(&self, image: &mut Image, part: std::ops::Range<usize>, out: &mut [u8]) {
        self.reply(&image[part.clone()], out);
        image[part].fill(0);
    }
}
