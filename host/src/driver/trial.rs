//! One call made to two panels side by side, with everything around its buffers watched.

use std::fmt;

use crate::model::names::IMAGE_LEN;
use crate::model::valid::is_valid;
use crate::panel::Panel;

/// Command bytes of a random call.
#[derive(Clone, Copy)]
pub struct Bytes {
    data: [u8; Bytes::MOST],
    length: usize,
}

impl Bytes {
    pub const MOST: usize = 48;

    pub fn new(data: &[u8]) -> Bytes {
        let mut bytes = Bytes { data: [0; Bytes::MOST], length: data.len() };
        bytes.data[..data.len()].copy_from_slice(data);
        bytes
    }

    pub fn as_slice(&self) -> &[u8] {
        &self.data[..self.length]
    }
}

/// A call with its arguments; the last number of command, show and lines is the output's length.
#[derive(Clone, Copy)]
pub enum Call {
    PowerUp,
    Tick,
    Command(Bytes, usize),
    KeySample(u16),
    RemoteFrame(u32),
    Ready(u32),
    WakeUp(u32),
    SupplyReturn(u32),
    Show(usize),
    Lines(usize),
}

impl Call {
    pub const NAMES: [&'static str; 10] = [
        "power_up",
        "tick",
        "command",
        "key_sample",
        "remote_frame",
        "ready",
        "wake_up",
        "supply_return",
        "show",
        "lines",
    ];

    /// The call's place in `NAMES`.
    pub fn place(&self) -> usize {
        match self {
            Call::PowerUp => 0,
            Call::Tick => 1,
            Call::Command(..) => 2,
            Call::KeySample(_) => 3,
            Call::RemoteFrame(_) => 4,
            Call::Ready(_) => 5,
            Call::WakeUp(_) => 6,
            Call::SupplyReturn(_) => 7,
            Call::Show(_) => 8,
            Call::Lines(_) => 9,
        }
    }

    fn input(&self) -> &[u8] {
        match self {
            Call::Command(bytes, _) => bytes.as_slice(),
            _ => &[],
        }
    }

    fn output_len(&self) -> usize {
        match *self {
            Call::Command(_, length) | Call::Show(length) | Call::Lines(length) => length,
            _ => 0,
        }
    }

    fn make(&self, panel: &impl Panel, image: &mut [u8], input: &[u8], output: &mut [u8]) -> u32 {
        match *self {
            Call::PowerUp => panel.power_up(image),
            Call::Tick => panel.tick(image),
            Call::Command(..) => panel.command(image, input, output),
            Call::KeySample(sample) => panel.key_sample(image, sample),
            Call::RemoteFrame(frame) => panel.remote_frame(image, frame),
            Call::Ready(level) => panel.ready(image, level),
            Call::WakeUp(level) => panel.wake_up(image, level),
            Call::SupplyReturn(seconds) => panel.supply_return(image, seconds),
            Call::Show(_) => panel.show(image, output),
            Call::Lines(_) => panel.lines(image, output),
        }
    }
}

impl fmt::Display for Call {
    fn fmt(&self, to: &mut fmt::Formatter) -> fmt::Result {
        let name = Call::NAMES[self.place()];
        match self {
            Call::PowerUp | Call::Tick => write!(to, "{name}()"),
            Call::Command(bytes, length) => {
                write!(to, "{name}(bytes = [{}], output of {length})", hex(bytes.as_slice()))
            }
            Call::KeySample(sample) => write!(to, "{name}({sample:#06X})"),
            Call::RemoteFrame(frame) => write!(to, "{name}({frame:#010X})"),
            Call::Ready(level) | Call::WakeUp(level) => write!(to, "{name}({level})"),
            Call::SupplyReturn(seconds) => write!(to, "{name}({seconds})"),
            Call::Show(length) | Call::Lines(length) => write!(to, "{name}(output of {length})"),
        }
    }
}

/// Bytes as two hexadecimal digits each.
pub fn hex(bytes: &[u8]) -> String {
    bytes.iter().map(|byte| format!("{byte:02X}")).collect::<Vec<_>>().join(" ")
}

// A desk is the memory around one call: three rooms with guard bytes before, between and after.
const DESK: usize = 480;
const IMAGE_ROOM: usize = 32;
const INPUT_ROOM: usize = 224;
const OUTPUT_ROOM: usize = 336;
const LONGEST_IMAGE: usize = 144;

/// Two panels and a desk for each.
pub struct Bench<A, B> {
    first: A,
    second: B,
    before: [u8; DESK],
    desks: [[u8; DESK]; 2],
    /// How far the buffers are moved up in their rooms, so that their addresses vary.
    shift: usize,
    lengths: [usize; 3],
}

impl<A: Panel, B: Panel> Bench<A, B> {
    pub fn new(first: A, second: B) -> Bench<A, B> {
        Bench { first, second, before: [0; DESK], desks: [[0; DESK]; 2], shift: 0, lengths: [0; 3] }
    }

    /// The image after the last call.
    pub fn image(&self) -> &[u8] {
        self.part(&self.desks[0], 0)
    }

    /// The output after the last call.
    pub fn output(&self) -> &[u8] {
        self.part(&self.desks[0], 2)
    }

    fn part<'a>(&self, desk: &'a [u8; DESK], room: usize) -> &'a [u8] {
        let from = [IMAGE_ROOM, INPUT_ROOM, OUTPUT_ROOM][room] + self.shift;
        &desk[from..from + self.lengths[room]]
    }

    fn lay_out(&mut self, image: &[u8], call: &Call, salt: u64) {
        assert!(image.len() <= LONGEST_IMAGE && call.input().len() <= Bytes::MOST && call.output_len() <= 96);
        // Guard bytes and the output's old content change from call to call.
        let step = salt as u8 | 1;
        let mut value = (salt >> 8) as u8;
        for byte in self.before.iter_mut() {
            *byte = value;
            value = value.wrapping_add(step);
        }
        self.shift = (salt >> 16) as usize % 8;
        self.lengths = [image.len(), call.input().len(), call.output_len()];
        self.before[IMAGE_ROOM + self.shift..][..image.len()].copy_from_slice(image);
        self.before[INPUT_ROOM + self.shift..][..call.input().len()].copy_from_slice(call.input());
    }

    fn make(&self, panel: &impl Panel, call: &Call, desk: &mut [u8; DESK]) -> u32 {
        let [image, input, output] = self.lengths;
        let (lower, upper) = desk.split_at_mut(OUTPUT_ROOM);
        let (lowest, middle) = lower.split_at_mut(INPUT_ROOM);
        call.make(
            panel,
            &mut lowest[IMAGE_ROOM + self.shift..][..image],
            &middle[self.shift..][..input],
            &mut upper[self.shift..][..output],
        )
    }

    /// True if nothing but the image and the output has changed on the desk.
    fn guards_hold(&self, desk: &[u8; DESK]) -> bool {
        let image = IMAGE_ROOM + self.shift;
        let output = OUTPUT_ROOM + self.shift;
        let (image_end, output_end) = (image + self.lengths[0], output + self.lengths[2]);
        desk[..image] == self.before[..image]
            && desk[image_end..output] == self.before[image_end..output]
            && desk[output_end..] == self.before[output_end..]
    }

    /// Makes the call to both panels and compares number, image, output and all that lies around them.
    pub fn run(&mut self, image: &[u8], call: &Call, salt: u64) -> Result<u32, Box<Difference>> {
        self.lay_out(image, call, salt);
        let (mut first, mut second) = (self.before, self.before);
        let numbers = [self.make(&self.first, call, &mut first), self.make(&self.second, call, &mut second)];
        self.desks = [first, second];
        let law = self.broken_law(call, numbers[0]);
        if numbers[0] == numbers[1] && self.desks[0] == self.desks[1] && law.is_none() {
            return Ok(numbers[0]);
        }
        let told = |side: usize| Told {
            number: numbers[side],
            image: self.part(&self.desks[side], 0).to_vec(),
            output: self.part(&self.desks[side], 2).to_vec(),
            guards_hold: self.guards_hold(&self.desks[side]),
        };
        Err(Box::new(Difference {
            image: image.to_vec(),
            call: *call,
            output: self.part(&self.before, 2).to_vec(),
            told: [told(0), told(1)],
            law,
        }))
    }

    /// A law that the first panel's answer breaks, whatever the second says.
    fn broken_law(&self, call: &Call, number: u32) -> Option<&'static str> {
        let desk = &self.desks[0];
        if !self.guards_hold(desk) {
            return Some("a byte outside image and output was written");
        }
        if number != 0 && *desk != self.before {
            return Some("a refused call wrote something");
        }
        let reads_only = matches!(call, Call::Show(_) | Call::Lines(_));
        if reads_only && self.part(desk, 0) != self.part(&self.before, 0) {
            return Some("show or lines changed the image");
        }
        let image = <&[u8; IMAGE_LEN]>::try_from(self.part(desk, 0));
        if number == 0 && !image.is_ok_and(is_valid) {
            return Some("an accepted call left no valid image");
        }
        None
    }
}

/// What one panel answered.
pub struct Told {
    number: u32,
    image: Vec<u8>,
    output: Vec<u8>,
    guards_hold: bool,
}

/// A call on which the panels differ, with all that is needed to make it again.
pub struct Difference {
    image: Vec<u8>,
    pub call: Call,
    output: Vec<u8>,
    told: [Told; 2],
    law: Option<&'static str>,
}

impl fmt::Display for Difference {
    fn fmt(&self, to: &mut fmt::Formatter) -> fmt::Result {
        writeln!(to, "call          {}", self.call)?;
        writeln!(to, "image before  {}", hex(&self.image))?;
        writeln!(to, "output before {}", hex(&self.output))?;
        for (told, side) in self.told.iter().zip(["first ", "second"]) {
            writeln!(to, "{side} number {}", told.number)?;
            writeln!(to, "{side} image  {}", hex(&told.image))?;
            writeln!(to, "{side} output {}", hex(&told.output))?;
            if !told.guards_hold {
                writeln!(to, "{side} wrote outside image and output")?;
            }
        }
        for at in (0..self.image.len()).filter(|&at| self.told[0].image[at] != self.told[1].image[at]) {
            let [first, second] = [&self.told[0], &self.told[1]].map(|told| told.image[at]);
            writeln!(
                to,
                "image byte {at}: before {:02X}, first {first:02X}, second {second:02X}",
                self.image[at]
            )?;
        }
        match self.law {
            Some(law) => writeln!(to, "law broken by the first: {law}"),
            None => Ok(()),
        }
    }
}
