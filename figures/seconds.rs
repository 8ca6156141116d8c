//! The longest supply cut by single seconds: the clock is stepped and the alarm judged 31,622,400 times.
//! Argument: the sixteen clock registers in hexadecimal. Prints the registers and the match after the cut and
//! the median time of eleven runs in nanoseconds.

use std::hint::black_box;
use std::time::Instant;

#[path = "../host/tests/clock/mod.rs"]
mod clock;

use clock::Clock;

const CUT: u32 = 31_622_400;
const RUNS: usize = 11;

/// Each field is the number to compare with, or nothing.
#[derive(Clone, Copy)]
struct Alarm {
    second: Option<u32>,
    minute: Option<u32>,
    hour: Option<u32>,
    date: Option<u32>,
    month: Option<u32>,
    weekday: Option<u32>,
}

fn from_bcd(byte: u8) -> u32 {
    10 * u32::from(byte >> 4) + u32::from(byte & 0x0F)
}

fn to_bcd(number: u32) -> u8 {
    (number / 10 * 16 + number % 10) as u8
}

impl Clock {
    fn of(registers: &[u8; 16]) -> Clock {
        Clock {
            second: from_bcd(registers[1]),
            minute: from_bcd(registers[2]),
            hour: from_bcd(registers[3] & 0x3F),
            weekday: u32::from(registers[4]),
            date: from_bcd(registers[5]),
            month: from_bcd(registers[6] & 0x1F),
            year: from_bcd(registers[7]),
            century: u32::from(registers[6] >> 6),
        }
    }

    fn write(&self, registers: &mut [u8; 16]) {
        registers[1] = to_bcd(self.second);
        registers[2] = to_bcd(self.minute);
        registers[3] = registers[3] & 0xC0 | to_bcd(self.hour);
        registers[4] = self.weekday as u8;
        registers[5] = to_bcd(self.date);
        registers[6] = (self.century << 6) as u8 | to_bcd(self.month);
        registers[7] = to_bcd(self.year);
    }
}

impl Alarm {
    /// The alarm in registers whose compared fields are BCD.
    fn of(registers: &[u8; 16]) -> Alarm {
        let field = |at: usize, repeat: u8, bits: u8, value: u8| {
            (registers[at] & repeat == 0).then(|| from_bcd(value & bits))
        };
        Alarm {
            second: field(0x0E, 0x80, 0x7F, registers[0x0E]),
            minute: field(0x0D, 0x80, 0x7F, registers[0x0D]),
            hour: field(0x0C, 0x80, 0x3F, registers[0x0C]),
            date: field(0x0B, 0x80, 0x3F, registers[0x0B]),
            month: field(0x0B, 0x40, 0x1F, registers[0x0A]),
            weekday: field(0x0C, 0x40, 0x07, registers[0x0F] >> 4),
        }
    }

    fn matches(&self, clock: &Clock) -> bool {
        let fits = |field: Option<u32>, number: u32| field.is_none_or(|value| value == number);
        fits(self.second, clock.second)
            && fits(self.minute, clock.minute)
            && fits(self.hour, clock.hour)
            && fits(self.date, clock.date)
            && fits(self.month, clock.month)
            && fits(self.weekday, clock.weekday)
    }
}

/// The clock after the cut, and whether a second reached matched.
fn cut(mut clock: Clock, alarm: Alarm, seconds: u32) -> (Clock, bool) {
    let mut matched = false;
    for _ in 0..seconds {
        clock.next_second();
        matched |= alarm.matches(&clock);
    }
    (clock, matched)
}

fn registers_in(text: &str) -> Option<[u8; 16]> {
    if text.len() != 32 || !text.is_ascii() {
        return None;
    }
    let mut registers = [0; 16];
    for (at, register) in registers.iter_mut().enumerate() {
        *register = u8::from_str_radix(&text[2 * at..2 * at + 2], 16).ok()?;
    }
    Some(registers)
}

fn main() {
    let Some(mut registers) = std::env::args().nth(1).as_deref().and_then(registers_in) else {
        eprintln!("usage: seconds REGISTERS, sixteen bytes in hexadecimal");
        std::process::exit(2);
    };
    let (clock, alarm) = (Clock::of(&registers), Alarm::of(&registers));
    let mut after = (clock, false);
    let mut times = [0; RUNS];
    for time in &mut times {
        let begun = Instant::now();
        after = black_box(cut(black_box(clock), black_box(alarm), black_box(CUT)));
        *time = begun.elapsed().as_nanos();
    }
    times.sort_unstable();
    after.0.write(&mut registers);
    let written: String = registers.iter().map(|byte| format!("{byte:02X}")).collect();
    println!("{written} {} {}", u8::from(after.1), times[RUNS / 2]);
}
