//! The ten calls as one interface, so that the archive and the model can change places.

use crate::model::Model;

/// Something that answers the ten calls; each returns the refusal number, 0 where accepted.
pub trait Panel {
    fn power_up(&self, image: &mut [u8]) -> u32;
    fn tick(&self, image: &mut [u8]) -> u32;
    fn command(&self, image: &mut [u8], bytes: &[u8], out: &mut [u8]) -> u32;
    fn key_sample(&self, image: &mut [u8], sample: u16) -> u32;
    fn remote_frame(&self, image: &mut [u8], frame: u32) -> u32;
    fn ready(&self, image: &mut [u8], level: u32) -> u32;
    fn wake_up(&self, image: &mut [u8], level: u32) -> u32;
    fn supply_return(&self, image: &mut [u8], seconds: u32) -> u32;
    fn show(&self, image: &[u8], digits: &mut [u8]) -> u32;
    fn lines(&self, image: &[u8], lines: &mut [u8]) -> u32;
}

impl Panel for Model {
    fn power_up(&self, image: &mut [u8]) -> u32 {
        Model::power_up(self, image)
    }

    fn tick(&self, image: &mut [u8]) -> u32 {
        Model::tick(self, image)
    }

    fn command(&self, image: &mut [u8], bytes: &[u8], out: &mut [u8]) -> u32 {
        Model::command(self, image, bytes, out)
    }

    fn key_sample(&self, image: &mut [u8], sample: u16) -> u32 {
        Model::key_sample(self, image, sample)
    }

    fn remote_frame(&self, image: &mut [u8], frame: u32) -> u32 {
        Model::remote_frame(self, image, frame)
    }

    fn ready(&self, image: &mut [u8], level: u32) -> u32 {
        Model::ready(self, image, level)
    }

    fn wake_up(&self, image: &mut [u8], level: u32) -> u32 {
        Model::wake_up(self, image, level)
    }

    fn supply_return(&self, image: &mut [u8], seconds: u32) -> u32 {
        Model::supply_return(self, image, seconds)
    }

    fn show(&self, image: &[u8], digits: &mut [u8]) -> u32 {
        Model::show(self, image, digits)
    }

    fn lines(&self, image: &[u8], lines: &mut [u8]) -> u32 {
        Model::lines(self, image, lines)
    }
}
