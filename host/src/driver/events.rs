//! Random calls, drawn so that each rule is met often from the image at hand.

use std::ops::Range;

use super::images::{aim_alarm, random_keys, random_moment};
use super::random::Random;
use super::trial::{Bytes, Call};
use crate::model::names::*;
use crate::model::registers::KEPT;

/// A level: 0, or one of the many numbers that are not 0.
pub fn random_level(random: &mut Random) -> u32 {
    let any = random.number();
    random.pick(&[0, 0, 0, 0, 1, 1, 1, 2, 0x100, 0x1_0000, 0x8000_0000, u32::MAX, any])
}

/// A key sample, often the last one again so that it is accepted.
pub fn random_sample(image: &Image, random: &mut Random) -> u16 {
    let last = word(image, LAST_SAMPLE);
    match random.below(8) {
        0..=3 => last,
        4 => last ^ 1 << random.below(16),
        5 => word(image, HOT_KEYS),
        6 => word(image, ACCEPTED_KEYS),
        _ => random_keys(random),
    }
}

fn nec_frame(address: u8, command: u8) -> u32 {
    u32::from_le_bytes([address, !address, command, !command])
}

fn rc5_frame(toggle: u32, address: u32, command: u32) -> u32 {
    0x3000 | toggle << 11 | address << 6 | command
}

/// A frame of either protocol: a key, nearly a key, or anything.
pub fn random_frame(image: &Image, random: &mut Random) -> u32 {
    let set = image[SETUP] >> 4;
    let nec = if random.once_in(6) { set != NEC } else { set == NEC };
    let (toggle, command) = (random.below(2), random.byte());
    let key = if nec { nec_frame(0, command) } else { rc5_frame(toggle, 0, u32::from(command) & 0x3F) };
    match random.below(10) {
        0..=4 => key,
        5 | 6 => key ^ 1 << random.below(if nec { 32 } else { 16 }),
        7 if nec => nec_frame(random.pick(&[1, 2, 0x80, 0xFF, command]), command),
        7 => rc5_frame(toggle, random.from_to(1, 31), u32::from(command) & 0x3F),
        8 => key ^ 1 << random.below(32) ^ 1 << random.below(32),
        _ => random.number(),
    }
}

/// Seconds of a cut: none, few, about a number of days, about the longest, or too many.
pub fn random_cut(random: &mut Random) -> u32 {
    match random.below(12) {
        0 => 0,
        1 | 2 => random.from_to(1, 3),
        3 | 4 => random.from_to(1, 130),
        5 => random.from_to(1, 4_000),
        6 => 86_400 * random.from_to(1, 8) - random.below(3) + 1,
        7 => random.pick(&[86_399, 86_400, 86_401, 604_800, 2_678_400]),
        8 => random.below(LONGEST_CUT + 1),
        9 => LONGEST_CUT - random.below(3) + 1,
        10 => random.below(40 * 86_400),
        _ => {
            let any = random.number();
            random.pick(&[LONGEST_CUT, LONGEST_CUT + 1, LONGEST_CUT + 2, 1 << 31, u32::MAX, any])
        }
    }
}

/// A length that is usually right and otherwise anything from 0 to 40.
pub fn random_length(random: &mut Random, right: usize) -> usize {
    if random.once_in(5) {
        random.below(41) as usize
    } else {
        right
    }
}

/// The registers that a 50h command writes; some choices also change what it writes there.
fn random_span(image: &Image, registers: &mut [u8; 16], random: &mut Random) -> Range<usize> {
    match random.below(8) {
        0 | 1 => SECONDS..YEAR + 1,
        2 => DATE..YEAR + 1,
        3 => DATE + random.below(2) as usize..MONTH + 1,
        4 => {
            let mut aimed = *image;
            let ahead = random.below(4);
            aim_alarm(&mut aimed, random, ahead);
            registers[ALARM_MONTH..].copy_from_slice(&aimed[ALARM_MONTH..16]);
            ALARM_MONTH..16
        }
        5 => {
            let any = random.byte();
            registers[WATCHDOG] =
                random.pick(&[registers[WATCHDOG], 0x04, 0x05, 0x08, 0x80, 0xFC, 0x16, 0x83, any]);
            WATCHDOG - random.below(2) as usize..WATCHDOG + 1
        }
        6 => {
            let from = random.from_to(1, 15) as usize;
            from..from + 1 + random.below(16 - from as u32) as usize
        }
        _ => {
            for register in &mut registers[1 + random.below(15) as usize..] {
                *register = random.byte();
            }
            random.from_to(1, 15) as usize..16
        }
    }
}

/// Sets reserved bits in some of the bytes for the registers `span`, and spoils a few others.
fn spoil_data(data: &mut [u8], span: Range<usize>, random: &mut Random) {
    for (byte, at) in data.iter_mut().zip(span) {
        if random.once_in(12) {
            *byte |= random.byte() & !KEPT[at];
        } else if random.once_in(24) {
            *byte ^= 1 << random.below(8);
        } else if random.once_in(48) {
            *byte = random.byte();
        }
    }
}

/// The data of a 50h command with its address in front.
fn register_data(image: &Image, random: &mut Random) -> Vec<u8> {
    let mut registers: [u8; 16] = image[..16].try_into().expect("sixteen registers");
    random_moment(random).write(&mut registers);
    let span = random_span(image, &mut registers, random);
    let mut data = vec![span.start as u8];
    data.extend_from_slice(&registers[span.clone()]);
    spoil_data(&mut data[1..], span, random);
    data
}

/// The bytes of a command of its right length, and the output it calls for.
fn right_command(image: &Image, random: &mut Random) -> (Vec<u8>, usize) {
    let any = random.byte();
    match random.below(24) {
        0..=3 => {
            let protocol = random.pick(&[0, 2, 2, 4, 4, any & 0x07]);
            let setup = any & 0x80 | protocol << 4 | random.pick(&[0, 1, 2, any & 0x0F]);
            let first = random.byte() & 0x3F;
            let digits = random.pick(&[image[DIGITS], 1, 2, 3, 4, 5, 0, 6, any]);
            let length = if first & GIVES_DIGITS == 0 { 2 } else { 3 };
            (vec![first, setup, digits][..length].to_vec(), 0)
        }
        4 | 5 => {
            let address = random.pick(&[0x10, 0x11, 0x12, 0x13, 0x14, 0x0F, 0x15, any]);
            let mut bytes = vec![0x40, address];
            bytes.extend((0..random.from_to(1, 7)).map(|place| any.wrapping_mul(place as u8 + 3)));
            (bytes, 0)
        }
        6..=11 => {
            let mut bytes = vec![0x50];
            bytes.extend(register_data(image, random));
            if random.once_in(20) {
                bytes[1] = random.pick(&[0x00, 0x10, 0x11, any]);
            }
            (bytes, 0)
        }
        12 => (vec![0x61], 2),
        13 => (vec![0x62], 3),
        14 => (vec![0x63], 2),
        15 | 16 => {
            let address = if random.once_in(8) { any } else { any & 0x1F };
            (vec![0x70, address], random.below(20) as usize)
        }
        17 | 18 => (vec![0x80 | any & 0x1F], 0),
        19 => (vec![0xA0, any, random.byte()], 0),
        20 => (vec![0xC1], 0),
        21 => (vec![0xC2], 0),
        _ => (vec![random.pick(&[any, 0x41, 0x51, 0x60, 0x64, 0x71, 0xA1, 0xC0, 0xC3, 0xFF]), any], 4),
    }
}

/// Any command: right, short, with surplus bytes, with any output length.
pub fn random_command(image: &Image, random: &mut Random) -> Call {
    let (mut bytes, output) = right_command(image, random);
    match random.below(12) {
        0 => bytes.truncate(random.below(bytes.len() as u32 + 1) as usize),
        1 | 2 => bytes.extend((0..random.from_to(1, 20)).map(|_| random.byte())),
        _ => {}
    }
    bytes.truncate(Bytes::MOST);
    let output = random_length(random, output);
    Call::Command(Bytes::new(&bytes), output)
}

/// Any of the ten calls.
pub fn random_call(image: &Image, random: &mut Random) -> Call {
    match random.below(100) {
        0..=29 => Call::Tick,
        30..=54 => random_command(image, random),
        55..=66 => Call::KeySample(random_sample(image, random)),
        67..=74 => Call::RemoteFrame(random_frame(image, random)),
        75..=79 => Call::Ready(random_level(random)),
        80..=84 => Call::WakeUp(random_level(random)),
        85..=88 => Call::SupplyReturn(random_cut(random)),
        89..=94 => Call::Show(random_length(random, 5)),
        95..=98 => Call::Lines(random_length(random, 1)),
        _ => Call::PowerUp,
    }
}
