//! Document 01's fourteen edge readings, through the public calls.

mod board;

use board::Board;

#[test]
fn edge_01_leap_day() {
    let mut board = Board::at([0, 0x24, 0x02, 0x28], [0x23, 0x59, 0x59], 4);
    board.seconds(1);
    assert_eq!(board.registers(1)[..7], [0x00, 0x00, 0x00, 0x05, 0x29, 0x02, 0x24]);
}

#[test]
fn edge_02_no_leap_day() {
    let mut board = Board::at([0, 0x23, 0x02, 0x28], [0x23, 0x59, 0x59], 3);
    board.seconds(1);
    assert_eq!(board.registers(1)[..7], [0x00, 0x00, 0x00, 0x04, 0x01, 0x03, 0x23]);
}

#[test]
fn edge_03_century_goes_up() {
    let mut board = Board::at([0, 0x99, 0x12, 0x31], [0x23, 0x59, 0x59], 5);
    board.seconds(1);
    assert_eq!(board.registers(1)[..7], [0x00, 0x00, 0x00, 0x06, 0x01, 0x41, 0x00]);
}

#[test]
fn edge_04_cycle_starts_again() {
    let mut board = Board::at([3, 0x99, 0x12, 0x31], [0x23, 0x59, 0x59], 7);
    board.seconds(1);
    assert_eq!(board.registers(1)[..7], [0x00, 0x00, 0x00, 0x01, 0x01, 0x01, 0x00]);
}

#[test]
fn edge_05_nine_is_followed_by_ten() {
    let mut board = Board::at([0, 0x24, 0x05, 0x05], [0x12, 0x09, 0x59], 1);
    board.seconds(1);
    assert_eq!(board.registers(1)[..3], [0x00, 0x10, 0x12]);
}

#[test]
fn edge_06_no_31_april() {
    let mut board = Board::new();
    board.refuse(&[0x50, 0x05, 0x31, 0x04], 0, 9);
}

#[test]
fn edge_07_seconds_are_bcd() {
    let mut board = Board::new();
    board.refuse(&[0x50, 0x01, 0x1A], 0, 9);
}

#[test]
fn edge_08_watchdog_loads() {
    for (register, load) in [(0x16, 80), (0xFC, 29_760), (0x83, 0)] {
        let mut board = Board::new();
        board.accept(&[0x50, 0x09, register]);
        assert_eq!(board.watchdog(), load);
    }
}

#[test]
fn edge_09_nec() {
    let mut board = Board::new();
    board.accept(&[0x01, 0x4A]);
    assert_eq!(board.frame(u32::from_le_bytes([0x00, 0xFF, 0x45, 0xBA])), 0);
    assert_eq!(board.command(&[0x62], 3), (0, vec![1, 0, 0x45]));
    assert_eq!(board.frame(u32::from_le_bytes([0x00, 0xFF, 0x45, 0xBB])), 11);
    assert_eq!(board.command(&[0x62], 3), (0, vec![0, 0, 0]));
}

#[test]
fn edge_10_rc5_with_either_toggle() {
    for frame in [0x300C, 0x380C] {
        let mut board = Board::new();
        board.accept(&[0x01, 0x2A]);
        assert_eq!(board.frame(frame), 0);
        assert_eq!(board.command(&[0x62], 3), (0, vec![1, 0, 12]));
    }
}

#[test]
fn edge_11_longest_cut() {
    let mut board = Board::at([0, 0x24, 0x01, 0x01], [0x00, 0x00, 0x00], 2);
    assert_eq!(board.supply_return(31_622_400), 0);
    assert_eq!(board.registers(1)[..7], [0x00, 0x00, 0x00, 0x04, 0x01, 0x01, 0x25]);
}

#[test]
fn edge_12_longer_cut() {
    let mut board = Board::at([0, 0x24, 0x01, 0x01], [0x00, 0x00, 0x00], 2);
    let before = board.image;
    assert_eq!(board.supply_return(31_622_401), 10);
    assert_eq!(board.image, before);
}

#[test]
fn edge_13_start_second_is_not_reached() {
    for (seconds, told) in [(86_399, [0x00, 0x00]), (86_400, [0x10, 0x01])] {
        let mut board = Board::at([0, 0x24, 0x03, 0x15], [0x07, 0x30, 0x00], 5);
        board.accept(&[0x50, 0x0A, 0xA0, 0xC0, 0x47, 0x30, 0x00]);
        assert_eq!(board.supply_return(seconds), 0);
        assert_eq!(board.command(&[0x63], 2), (0, told.to_vec()));
    }
}

#[test]
fn edge_14_guard_of_one_second() {
    let mut board = Board::new();
    board.accept(&[0x01, 0x01]);
    board.ticks(15);
    assert!(!board.standby());
    board.ticks(1);
    assert!(board.standby());
}
