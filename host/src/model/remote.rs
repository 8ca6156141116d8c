//! Remote frames: which 32-bit numbers are a key of which protocol.

use super::fault::Fault;
use super::names::*;
use super::Model;

/// The command of a NEC frame for the device: bytes, first received lowest, are the address,
/// its complement, the command and its complement.
fn nec_command(frame: u32, device: u8) -> Option<u8> {
    let [address, not_address, command, not_command] = frame.to_le_bytes();
    let sound = not_address == !address && not_command == !command;
    (sound && address == device).then_some(command)
}

/// The command of an RC-5 frame for the device: two start bits from bit 13 down, a toggle of
/// either value, five address bits and six command bits.
fn rc5_command(frame: u32, device: u8) -> Option<u8> {
    let start = frame >> 12;
    let address = frame >> 6 & 0x1F;
    (start == 0b11 && address == u32::from(device)).then_some((frame & 0x3F) as u8)
}

/// The command of the frame if it is a key of the protocol.
pub fn key_of(model: &Model, protocol: u8, frame: u32) -> Option<u8> {
    let read = |device| match protocol {
        NEC => nec_command(frame, device),
        RC5 if model.has(Fault::Rc5HighBitsIgnored) => rc5_command(frame & 0x3FFF, device),
        RC5 => rc5_command(frame, device),
        _ => None,
    };
    match read(0) {
        None if model.has(Fault::AnyRemoteAddress) => read(1),
        key => key,
    }
}
