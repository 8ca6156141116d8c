//! The ten calls that `libstled325.a` exports, and safe wrappers for them.
//!
//! A slice is a pointer and then a length, as in `include/stled325.h`. Borrowed slices give what
//! the calls ask of their caller: pointers that are not null, true lengths, and no overlap.

use crate::panel::Panel;

mod exported {
    extern "C" {
        pub fn stled325_power_up(image: *mut u8, image_len: usize) -> u32;
        pub fn stled325_tick(image: *mut u8, image_len: usize) -> u32;
        pub fn stled325_command(
            image: *mut u8,
            image_len: usize,
            bytes: *const u8,
            bytes_len: usize,
            out: *mut u8,
            out_len: usize,
        ) -> u32;
        pub fn stled325_key_sample(image: *mut u8, image_len: usize, sample: u16) -> u32;
        pub fn stled325_remote_frame(image: *mut u8, image_len: usize, frame: u32) -> u32;
        pub fn stled325_ready(image: *mut u8, image_len: usize, level: u32) -> u32;
        pub fn stled325_wake_up(image: *mut u8, image_len: usize, level: u32) -> u32;
        pub fn stled325_supply_return(image: *mut u8, image_len: usize, seconds: u32) -> u32;
        pub fn stled325_show(image: *const u8, image_len: usize, digits: *mut u8, digits_len: usize) -> u32;
        pub fn stled325_lines(image: *const u8, image_len: usize, lines: *mut u8, lines_len: usize) -> u32;
    }
}

use exported::*;

/// The proved archive.
#[derive(Clone, Copy, Debug, Default)]
pub struct Archive;

// Each call below hands over borrowed slices only, so that what the archive asks of its caller holds.
impl Panel for Archive {
    fn power_up(&self, image: &mut [u8]) -> u32 {
        unsafe { stled325_power_up(image.as_mut_ptr(), image.len()) }
    }

    fn tick(&self, image: &mut [u8]) -> u32 {
        unsafe { stled325_tick(image.as_mut_ptr(), image.len()) }
    }

    fn command(&self, image: &mut [u8], bytes: &[u8], out: &mut [u8]) -> u32 {
        unsafe {
            stled325_command(
                image.as_mut_ptr(),
                image.len(),
                bytes.as_ptr(),
                bytes.len(),
                out.as_mut_ptr(),
                out.len(),
            )
        }
    }

    fn key_sample(&self, image: &mut [u8], sample: u16) -> u32 {
        unsafe { stled325_key_sample(image.as_mut_ptr(), image.len(), sample) }
    }

    fn remote_frame(&self, image: &mut [u8], frame: u32) -> u32 {
        unsafe { stled325_remote_frame(image.as_mut_ptr(), image.len(), frame) }
    }

    fn ready(&self, image: &mut [u8], level: u32) -> u32 {
        unsafe { stled325_ready(image.as_mut_ptr(), image.len(), level) }
    }

    fn wake_up(&self, image: &mut [u8], level: u32) -> u32 {
        unsafe { stled325_wake_up(image.as_mut_ptr(), image.len(), level) }
    }

    fn supply_return(&self, image: &mut [u8], seconds: u32) -> u32 {
        unsafe { stled325_supply_return(image.as_mut_ptr(), image.len(), seconds) }
    }

    fn show(&self, image: &[u8], digits: &mut [u8]) -> u32 {
        unsafe { stled325_show(image.as_ptr(), image.len(), digits.as_mut_ptr(), digits.len()) }
    }

    fn lines(&self, image: &[u8], lines: &mut [u8]) -> u32 {
        unsafe { stled325_lines(image.as_ptr(), image.len(), lines.as_mut_ptr(), lines.len()) }
    }
}
