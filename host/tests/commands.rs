//! Commands and their refusals on examples worked out by hand.

mod board;

use board::Board;

#[test]
fn refusals_come_in_the_order_of_their_numbers() {
    let mut board = Board::new();
    board.refuse(&[], 4, 2);
    board.refuse(&[0x41], 4, 4);
    board.refuse(&[0x60, 1, 2], 4, 4);
    board.refuse(&[0xC0], 4, 4);
    board.refuse(&[0x40, 0x99], 4, 5);
    board.refuse(&[0x10, 0x10], 4, 5);
    board.refuse(&[0x70], 4, 5);
    board.refuse(&[0xA0, 0x01], 4, 5);
    board.refuse(&[0x61], 1, 5);
    board.refuse(&[0x62], 2, 5);
    board.refuse(&[0x63], 0, 5);
    board.refuse(&[0x40, 0x99, 0x00], 4, 6);
    board.refuse(&[0x40, 0x0F, 0x00], 4, 6);
    board.refuse(&[0x50, 0x00, 0x00], 4, 6);
    board.refuse(&[0x50, 0x10, 0x00], 4, 6);
    board.refuse(&[0x70, 0x10], 4, 6);
    board.refuse(&[0x10, 0x10, 0x06], 4, 7);
    board.refuse(&[0x10, 0x20, 0x06], 4, 8);
    board.refuse(&[0x10, 0x20, 0x00], 4, 8);
    board.accept(&[0xC1]);
    board.refuse(&[], 4, 2);
    board.refuse(&[0x41], 4, 3);
    board.refuse(&[0x63], 2, 3);
}

#[test]
fn the_configuration_group_drops_b7_and_loads_the_guard() {
    let mut board = Board::new();
    board.ready(1);
    assert_eq!(board.guard(), 0);
    board.accept(&[0x2F, 0xC3, 0xAA]);
    assert_eq!((board.image[20], board.image[21], board.guard()), (0x2F, 0x43, 48));
    board.accept(&[0x0E, 0x00]);
    assert_eq!((board.image[20], board.image[21], board.guard()), (0x0E, 0x00, 0));
}

#[test]
fn changed_digits_turn_the_display_off_and_keep_the_brightness() {
    let mut board = Board::new();
    board.accept(&[0x9A]);
    board.accept(&[0x11, 0x0A, 0x05]);
    assert_eq!((board.image[20], board.image[37], board.image[38]), (0x01, 5, 0x1A));
    board.accept(&[0x11, 0x0A, 0x04, 0x99]);
    assert_eq!((board.image[37], board.image[38]), (4, 0x0A));
}

#[test]
fn digit_bytes_past_14h_are_ignored() {
    let mut board = Board::new();
    board.accept(&[0x40, 0x13, 1, 2, 3, 4]);
    assert_eq!(board.image[39..46], [0, 0, 0, 1, 2, 0, 0]);
}

#[test]
fn a_clock_write_is_judged_when_finished() {
    let mut board = Board::at([0, 0x23, 0x02, 0x28], [0, 0, 0], 1);
    board.accept(&[0x50, 0x05, 0x31, 0x03]);
    assert_eq!(board.image[5..7], [0x31, 0x03]);
    board.refuse(&[0x50, 0x06, 0x02], 0, 9);
    board.refuse(&[0x50, 0x04, 0x00], 0, 9);
    board.refuse(&[0x50, 0x04, 0x08], 0, 9);
}

#[test]
fn a_refused_write_leaves_sixteenths_and_watchdog() {
    let mut board = Board::new();
    board.accept(&[0x50, 0x09, 0x7C]);
    board.ticks(3);
    board.refuse(&[0x50, 0x01, 0x60, 0, 0, 1, 1, 1, 0, 0, 0x7C], 0, 9);
    assert_eq!((board.image[16], board.watchdog()), (3, 28));
}

#[test]
fn touching_is_by_address_whatever_the_value() {
    let mut board = Board::new();
    board.accept(&[0x50, 0x08, 0x00, 0x7C]);
    board.ticks(3);
    board.accept(&[0x50, 0x08, 0x80]);
    assert_eq!((board.image[16], board.watchdog()), (3, 28));
    board.accept(&[0x50, 0x07, 0x00]);
    assert_eq!((board.image[16], board.watchdog()), (0, 28));
    board.accept(&[0x50, 0x09, 0x7C]);
    assert_eq!(board.watchdog(), 31);
    board.ticks(1);
    board.accept(&[0x50, 0x0F, 0x80, 0x55, 0x55, 0x55, 0x55, 0x55, 0x55, 0x55, 0x55, 0x55, 0x55]);
    assert_eq!((board.image[16], board.watchdog()), (1, 30));
}

#[test]
fn reserved_bits_are_dropped_and_the_rest_is_read_back() {
    let mut board = Board::new();
    let mut bytes = vec![0x50, 0x01];
    bytes.extend([0xD9, 0xD9, 0xE3, 0xFF, 0xF1, 0xF2, 0x99, 0xFF, 0xFF, 0xFF, 0xFF, 0xFF, 0xFF, 0xFF, 0xFF]);
    board.accept(&bytes);
    let expected =
        [0x00, 0xD9, 0x59, 0xE3, 0x07, 0x31, 0xD2, 0x99, 0xBF, 0xFF, 0xBF, 0xFF, 0xFF, 0xFF, 0xFF, 0xF0];
    assert_eq!(board.registers(0), expected);
}

#[test]
fn reads_fill_the_output_with_ffh_and_clear() {
    let mut board = Board::new();
    board.press(0x8001);
    assert_eq!(board.command(&[0x61, 0x99], 4), (0, vec![0x01, 0x80, 0xFF, 0xFF]));
    assert_eq!(board.command(&[0x61], 2), (0, vec![0, 0]));
    assert_eq!(board.command(&[0x63], 3), (0, vec![0x80, 0x00, 0xFF]));
    assert_eq!(board.command(&[0x63], 2), (0, vec![0, 0]));
    assert_eq!(board.command(&[0x62], 3), (0, vec![0, 0, 0]));
}

#[test]
fn registers_are_read_as_far_as_the_output_holds() {
    let mut board = Board::new();
    assert_eq!(board.command(&[0x70, 0x04], 3), (0, vec![0x07, 0x01, 0x01]));
    assert_eq!(board.command(&[0x70, 0x0E], 4), (0, vec![0, 0, 0xFF, 0xFF]));
    assert_eq!(board.command(&[0x70, 0x0F], 0), (0, vec![]));
}

#[test]
fn other_commands_leave_the_output_untouched() {
    let mut board = Board::new();
    for bytes in
        [&[0x01, 0x0A][..], &[0x40, 0x10, 1], &[0x50, 0x0E, 1], &[0x90], &[0xA0, 1, 2], &[0xC2], &[0xC1]]
    {
        assert_eq!(board.command(bytes, 3), (0, vec![0x55; 3]));
    }
}

#[test]
fn the_guard_is_reloaded_only_while_it_runs() {
    let mut board = Board::new();
    board.ticks(100);
    assert_eq!(board.guard(), 60);
    board.accept(&[0xC2]);
    assert_eq!(board.guard(), 160);
    board.ready(1);
    board.accept(&[0xC2]);
    assert_eq!(board.guard(), 0);
}

#[test]
fn a_mask_goes_in_low_byte_first() {
    let mut board = Board::new();
    board.accept(&[0xA0, 0x34, 0x12, 0x99]);
    assert_eq!(board.image[26..28], [0x34, 0x12]);
}
