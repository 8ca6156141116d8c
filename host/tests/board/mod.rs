//! A board with one panel, driven through the ten public calls only.
#![allow(dead_code)]

use stled325_host::model::Model;
use stled325_host::panel::Panel;

/// The model, and beside it the archive where the package was built with it.
fn panels() -> Vec<Box<dyn Panel>> {
    vec![
        Box::new(Model::correct()),
        #[cfg(archive)]
        Box::new(stled325_host::calls::Archive),
    ]
}

pub struct Board {
    pub image: [u8; 64],
    panels: Vec<Box<dyn Panel>>,
}

impl Board {
    /// A panel just powered up.
    pub fn new() -> Board {
        let mut board = Board { image: [0xEE; 64], panels: panels() };
        assert_eq!(board.made(|panel, image| panel.power_up(image)), 0);
        board
    }

    /// Makes a call to each panel from the same image; their answers and images must agree.
    fn made<T: PartialEq + std::fmt::Debug>(&mut self, call: impl Fn(&dyn Panel, &mut [u8; 64]) -> T) -> T {
        let mut answers = self.panels.iter().map(|panel| {
            let mut image = self.image;
            (call(panel.as_ref(), &mut image), image)
        });
        let (answer, image) = answers.next().expect("there is a model");
        for other in answers {
            assert_eq!((&other.0, other.1), (&answer, image), "the archive beside the model");
        }
        self.image = image;
        answer
    }

    /// A panel with its calendar set: century, year, month, date, hours, minutes, seconds as BCD, weekday.
    pub fn at(date: [u8; 4], time: [u8; 3], weekday: u8) -> Board {
        let mut board = Board::new();
        let [century, year, month, day] = date;
        let [hours, minutes, seconds] = time;
        board.accept(&[0x50, 0x01, seconds, minutes, hours, weekday, day, century << 6 | month, year]);
        board
    }

    /// A command that must be accepted; its reply does not matter.
    pub fn accept(&mut self, bytes: &[u8]) {
        assert_eq!(self.command(bytes, 16).0, 0, "command {bytes:02X?}");
    }

    /// A command with an output of that length, first filled with 55h.
    pub fn command(&mut self, bytes: &[u8], output: usize) -> (u32, Vec<u8>) {
        self.made(|panel, image| {
            let mut out = vec![0x55; output];
            let number = panel.command(image, bytes, &mut out);
            (number, out)
        })
    }

    /// A command that must be refused by this number, and must leave image and output alone.
    pub fn refuse(&mut self, bytes: &[u8], output: usize, number: u32) {
        let before = self.image;
        assert_eq!(self.command(bytes, output), (number, vec![0x55; output]), "command {bytes:02X?}");
        assert_eq!(self.image, before);
    }

    /// The registers from the address on, as 70h replies them.
    pub fn registers(&mut self, from: u8) -> Vec<u8> {
        let (number, out) = self.command(&[0x70, from], 16 - usize::from(from));
        assert_eq!(number, 0);
        out
    }

    pub fn ticks(&mut self, count: u32) {
        for _ in 0..count {
            assert_eq!(self.made(|panel, image| panel.tick(image)), 0);
        }
    }

    pub fn seconds(&mut self, count: u32) {
        self.ticks(16 * count);
    }

    pub fn sample(&mut self, keys: u16) {
        assert_eq!(self.made(|panel, image| panel.key_sample(image, keys)), 0);
    }

    /// The same sample twice, so that it is accepted.
    pub fn press(&mut self, keys: u16) {
        self.sample(keys);
        self.sample(keys);
    }

    pub fn frame(&mut self, frame: u32) -> u32 {
        self.made(|panel, image| panel.remote_frame(image, frame))
    }

    pub fn ready(&mut self, level: u32) {
        assert_eq!(self.made(|panel, image| panel.ready(image, level)), 0);
    }

    pub fn wake_up(&mut self, level: u32) {
        assert_eq!(self.made(|panel, image| panel.wake_up(image, level)), 0);
    }

    pub fn supply_return(&mut self, seconds: u32) -> u32 {
        self.made(|panel, image| panel.supply_return(image, seconds))
    }

    pub fn show(&mut self) -> [u8; 5] {
        self.made(|panel, image| {
            let mut digits = [0x55; 5];
            assert_eq!(panel.show(image, &mut digits), 0);
            digits
        })
    }

    pub fn lines(&mut self) -> u8 {
        self.made(|panel, image| {
            let mut line = [0x55];
            assert_eq!(panel.lines(image, &mut line), 0);
            line[0]
        })
    }

    pub fn standby(&mut self) -> bool {
        self.lines() & 1 != 0
    }

    /// Guard and watchdog sixteenths left.
    pub fn guard(&self) -> u16 {
        u16::from_le_bytes([self.image[22], self.image[23]])
    }

    pub fn watchdog(&self) -> u16 {
        u16::from_le_bytes([self.image[24], self.image[25]])
    }

    pub fn interrupt(&self) -> u8 {
        self.image[18]
    }
}
