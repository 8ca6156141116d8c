//! Keys, remote, pins, lines and the display on examples worked out by hand.

mod board;

use board::Board;

/// NEC number of a key: address 0, its complement, the command, its complement.
fn nec(command: u8) -> u32 {
    u32::from_le_bytes([0x00, 0xFF, command, !command])
}

#[test]
fn two_equal_samples_are_a_press() {
    let mut board = Board::new();
    board.sample(0x0001);
    board.sample(0x0003);
    assert_eq!((board.image[30], board.image[32]), (0, 0));
    board.sample(0x0003);
    assert_eq!((board.image[30], board.image[32], board.interrupt()), (3, 3, 0x80));
    board.accept(&[0x61]);
    board.accept(&[0x63]);
    board.sample(0x0003);
    assert_eq!((board.image[32], board.interrupt()), (0, 0));
}

#[test]
fn cold_keys_do_nothing_in_standby_and_do_not_join_later() {
    let mut board = Board::new();
    board.accept(&[0xA0, 0x02, 0x00]);
    board.accept(&[0xC1]);
    board.press(0x0001);
    assert!(board.standby());
    assert_eq!((board.image[30], board.image[32], board.interrupt()), (1, 0, 0));
    board.press(0x0003);
    assert!(!board.standby());
    assert_eq!((board.image[30], board.image[32], board.interrupt()), (3, 2, 0x08));
    board.sample(0x0003);
    assert_eq!(board.image[32], 2);
}

#[test]
fn a_hot_key_held_since_before_standby_is_no_new_press() {
    let mut board = Board::new();
    board.accept(&[0x03, 0x0A]);
    board.press(0x0001);
    board.accept(&[0xC1]);
    board.press(0x0001);
    assert!(board.standby());
}

#[test]
fn with_b1_every_key_is_hot() {
    let mut board = Board::new();
    board.accept(&[0x03, 0x02]);
    board.accept(&[0xC1]);
    board.press(0x4000);
    assert!(!board.standby());
    assert_eq!((board.image[33], board.interrupt(), board.guard()), (0x40, 0x08, 32));
}

#[test]
fn frames_that_are_no_key_are_refused() {
    for (setup, frame) in [
        (0x0A, nec(1)),
        (0x0A, 0x300C),
        (0x2A, nec(1)),
        (0x2A, 0x704C),
        (0x2A, 0x1000_300C),
        (0x2A, 0x304C),
        (0x2A, 0x200C),
        (0x2A, 0x100C),
        (0x4A, 0x300C),
        (0x4A, u32::from_le_bytes([0x01, 0xFE, 0x45, 0xBA])),
        (0x4A, u32::from_le_bytes([0x00, 0xFE, 0x45, 0xBA])),
    ] {
        let mut board = Board::new();
        board.accept(&[0x01, setup]);
        let before = board.image;
        assert_eq!(board.frame(frame), 11, "setup {setup:02X}, frame {frame:08X}");
        assert_eq!(board.image, before);
    }
}

#[test]
fn a_remote_key_wakes_with_b2_only() {
    let mut board = Board::new();
    board.accept(&[0x00, 0x41]);
    assert_eq!(board.frame(nec(0x10)), 0);
    assert_eq!(board.interrupt(), 0x40);
    board.accept(&[0xC1]);
    assert_eq!(board.frame(nec(0x20)), 0);
    assert!(board.standby());
    assert_eq!((board.interrupt(), board.image[34], board.image[36]), (0x40, 1, 0x20));

    let mut board = Board::new();
    board.accept(&[0x04, 0x41]);
    board.accept(&[0xC1]);
    assert_eq!(board.frame(nec(0x30)), 0);
    assert!(!board.standby());
    assert_eq!((board.interrupt(), board.image[36], board.guard()), (0x04, 0x30, 16));
}

#[test]
fn ready_stops_the_guard_and_falls_into_standby() {
    let mut board = Board::new();
    assert_eq!(board.lines(), 0x02);
    board.ready(0x100);
    assert_eq!((board.lines(), board.guard()), (0x00, 0));
    board.accept(&[0x01, 0x05]);
    board.ready(1);
    assert_eq!(board.guard(), 80);
    board.ready(0);
    assert_eq!((board.lines(), board.guard()), (0x03, 0));
    board.ready(1);
    assert_eq!(board.lines(), 0x01);
    board.ready(0);
    assert_eq!(board.lines(), 0x03);
}

#[test]
fn wake_up_counts_with_b5_only() {
    let mut board = Board::new();
    board.wake_up(1);
    assert_eq!((board.image[19], board.interrupt()), (0x02, 0));
    board.accept(&[0x20, 0x01]);
    board.wake_up(7);
    assert_eq!(board.interrupt(), 0);
    board.wake_up(0);
    board.wake_up(7);
    assert_eq!(board.interrupt(), 0x20);
    board.accept(&[0xC1]);
    board.wake_up(0);
    assert!(board.standby());
    board.wake_up(1);
    assert!(!board.standby());
    assert_eq!((board.interrupt(), board.guard()), (0x22, 16));
}

#[test]
fn irq_counts_all_eight_bits_while_awake_and_ready() {
    let mut board = Board::new();
    board.accept(&[0x02, 0x00]);
    board.accept(&[0xC1]);
    board.press(0x0001);
    assert_eq!((board.interrupt(), board.lines()), (0x08, 0x02));
    board.ready(1);
    assert_eq!(board.lines(), 0x04);
    board.accept(&[0x63]);
    assert_eq!(board.lines(), 0x00);
}

#[test]
fn the_display_shows_digit_bytes_or_nothing() {
    let mut board = Board::new();
    board.accept(&[0x40, 0x10, 0x11, 0x22, 0x33, 0x44, 0x55]);
    assert_eq!(board.show(), [0; 5]);
    board.accept(&[0x90]);
    assert_eq!(board.show(), [0x11, 0x22, 0x33, 0x44, 0x55]);
    board.accept(&[0x10, 0x00, 0x03]);
    board.accept(&[0x90]);
    assert_eq!(board.show(), [0x11, 0x22, 0x33, 0, 0]);
    board.accept(&[0x08, 0x00]);
    assert_eq!(board.show(), [0x11, 0x22, 0x33, 0, 0]);
    board.accept(&[0xC1]);
    assert_eq!(board.show(), [0x11, 0x22, 0x33, 0, 0]);
}

#[test]
fn in_standby_without_b3_the_display_is_dark() {
    let mut board = Board::new();
    board.accept(&[0x40, 0x10, 0x11]);
    board.accept(&[0x9F]);
    board.accept(&[0xC1]);
    assert_eq!(board.show(), [0; 5]);
}

#[test]
fn the_three_faces() {
    let mut board = Board::at([0, 0x26, 0x11, 0x30], [0x09, 0x45, 0x17], 2);
    board.accept(&[0x18, 0x00, 0x04]);
    board.accept(&[0x9F]);
    assert_eq!(board.show(), [0x3F, 0x6F | 0x80, 0x66, 0x6D, 0]);
    board.accept(&[0x50, 0x03, 0x49]);
    assert_eq!(board.show(), [0x66, 0x6D | 0x80, 0x06, 0x07, 0]);
    board.accept(&[0x50, 0x03, 0x89]);
    assert_eq!(board.show(), [0x06, 0x06 | 0x80, 0x4F, 0x3F, 0]);
    board.accept(&[0x50, 0x03, 0xC9]);
    assert_eq!(board.show(), [0x06, 0x06 | 0x80, 0x4F, 0x3F, 0]);
    board.accept(&[0xC1]);
    assert_eq!(board.show(), [0x06, 0x06 | 0x80, 0x4F, 0x3F, 0]);
}

#[test]
fn twelve_hours() {
    for (hour, tens, units) in [
        (0x00, 0x06, 0x5B),
        (0x01, 0x00, 0x06),
        (0x09, 0x00, 0x6F),
        (0x10, 0x06, 0x3F),
        (0x12, 0x06, 0x5B),
        (0x13, 0x00, 0x06),
        (0x21, 0x00, 0x6F),
        (0x22, 0x06, 0x3F),
        (0x23, 0x06, 0x06),
    ] {
        let mut board = Board::at([0, 0x26, 0x11, 0x30], [hour, 0x08, 0x00], 2);
        board.accept(&[0x50, 0x08, 0x80]);
        board.accept(&[0x08, 0x00]);
        board.accept(&[0x90]);
        assert_eq!(board.show(), [tens, units | 0x80, 0x3F, 0x7F, 0], "hour {hour:02X}");
    }
}
