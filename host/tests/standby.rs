//! Tick, standby, guard, watchdog, power-up and supply return on examples worked out by hand.

mod board;

use board::Board;

/// An alarm daily at 07:30:00, raised by ticks and over cuts.
const DAILY: [u8; 7] = [0x50, 0x0A, 0xA0, 0xC0, 0x47, 0x30, 0x00];

/// A panel one second before its daily alarm.
fn before_alarm() -> Board {
    let mut board = Board::at([0, 0x26, 0x11, 0x16], [0x07, 0x29, 0x59], 1);
    board.accept(&DAILY);
    board
}

#[test]
fn an_alarm_wakes_and_the_guard_falls_in_that_tick() {
    let mut board = before_alarm();
    board.accept(&[0x01, 0x05]);
    board.accept(&[0xC1]);
    assert!(board.standby() && board.guard() == 0);
    board.ticks(15);
    assert!(board.standby());
    board.ticks(1);
    assert!(!board.standby());
    assert_eq!((board.interrupt(), board.image[17], board.guard()), (0x01, 0x01, 79));
}

#[test]
fn an_alarm_left_unread_wakes_again_the_next_day() {
    let mut board = before_alarm();
    board.seconds(1);
    assert_eq!(board.image[17], 0x01);
    board.accept(&[0x50, 0x01, 0x59, 0x29, 0x07]);
    board.accept(&[0xC1]);
    board.seconds(1);
    assert!(!board.standby());
    assert_eq!(board.interrupt(), 0x11);
}

#[test]
fn without_afe_nothing_is_raised() {
    let mut board = before_alarm();
    board.accept(&[0x50, 0x0A, 0x20]);
    board.accept(&[0xC1]);
    board.seconds(1);
    assert!(board.standby());
    assert_eq!((board.interrupt(), board.image[17]), (0, 0));
}

#[test]
fn alarm_and_watchdog_in_one_tick_of_standby() {
    let mut board = before_alarm();
    board.accept(&[0x50, 0x0F, 0x80]);
    board.accept(&[0x50, 0x09, 0x40]); // sixteen sixteenths
    board.accept(&[0xC1]);
    board.ticks(15);
    assert!(board.standby());
    board.ticks(1);
    assert!(!board.standby());
    assert_eq!((board.interrupt(), board.image[17], board.guard()), (0x11, 0x03, 159));
}

#[test]
fn an_rtc_event_awake_does_not_reload_the_guard() {
    let mut board = before_alarm();
    board.accept(&[0x01, 0x02]);
    board.ticks(16);
    assert_eq!((board.interrupt(), board.guard()), (0x10, 16));
}

#[test]
fn a_guard_that_ends_with_the_alarm_begins_standby_after_it() {
    let mut board = before_alarm();
    board.accept(&[0x01, 0x01]);
    board.ticks(16);
    assert!(board.standby());
    assert_eq!((board.interrupt(), board.image[17]), (0x10, 0x01));
}

#[test]
fn a_guard_without_b0_stops_silently() {
    let mut board = Board::new();
    board.accept(&[0x00, 0x01]);
    board.ticks(40);
    assert!(!board.standby());
    assert_eq!((board.guard(), board.interrupt()), (0, 0));
}

#[test]
fn the_guard_runs_and_the_watchdog_rests_with_the_oscillator_stopped() {
    let mut board = Board::new();
    board.accept(&[0x50, 0x09, 0x08]);
    board.accept(&[0x50, 0x01, 0x80]);
    board.ticks(40);
    assert_eq!((board.guard(), board.watchdog(), board.image[16]), (120, 2, 0));
}

#[test]
fn the_watchdog_ends_without_standby_and_each_end_is_an_event() {
    let mut board = Board::new();
    board.accept(&[0x50, 0x0F, 0x80]);
    for _ in 0..2 {
        board.accept(&[0x50, 0x09, 0x0C]);
        board.ticks(3);
        assert!(!board.standby());
        assert_eq!((board.image[17], board.interrupt(), board.watchdog()), (0x02, 0x10, 0));
        board.image[18] = 0;
    }
    board.accept(&[0x50, 0x09, 0x0C]);
    board.accept(&[0x50, 0x0F, 0x00]);
    board.ticks(3);
    assert_eq!((board.interrupt(), board.watchdog()), (0, 0));
}

#[test]
fn waking_with_guard_value_zero_leaves_the_guard_stopped() {
    let mut board = Board::new();
    board.accept(&[0x02, 0x00]);
    board.accept(&[0xC1]);
    board.press(0x0001);
    assert!(!board.standby());
    assert_eq!((board.guard(), board.interrupt()), (0, 0x08));
}

#[test]
fn at_midnight_the_new_weekday_is_compared() {
    for (weekday, flag) in [(5, 0), (6, 1), (7, 0)] {
        let mut board = Board::at([0, 0x26, 0x11, 0x20], [0x23, 0x59, 0x59], 5);
        // Second, minute and hour compared; date and month free; weekday compared.
        board.accept(&[0x50, 0x0A, 0x80, 0xC0, 0x00, 0x00, 0x00, weekday << 4]);
        board.seconds(1);
        assert_eq!(board.image[17], flag);
    }
}

#[test]
fn an_impossible_field_matches_nothing_unless_it_is_free() {
    for (second, flag) in [(0x1A, 0), (0x9A, 1), (0x20, 1), (0x7F, 0)] {
        let mut board = Board::at([0, 0x26, 0x11, 0x20], [0x07, 0x29, 0x19], 5);
        board.accept(&[0x50, 0x0A, 0x80, 0xC0, 0xC0, 0x80, second]);
        board.seconds(1);
        assert_eq!(board.image[17], flag, "alarm second {second:02X}");
    }
}

#[test]
fn writing_the_matching_second_is_no_match() {
    let mut board = before_alarm();
    board.accept(&[0x50, 0x01, 0x00, 0x30, 0x07]);
    assert_eq!((board.image[17], board.interrupt()), (0, 0));
}

#[test]
fn a_supply_return_keeps_registers_flags_and_sixteenths_only() {
    let mut board = before_alarm();
    board.accept(&[0x1F, 0x43, 0x04]);
    board.accept(&[0x50, 0x09, 0xFC]);
    board.accept(&[0xA0, 0x34, 0x12]);
    board.accept(&[0x9F]);
    board.accept(&[0x40, 0x10, 1, 2, 3, 4, 5]);
    board.ready(1);
    board.press(0x0100);
    board.ticks(5);
    assert_eq!(board.supply_return(2), 0);
    let mut expected = Board::new().image;
    expected[..16].copy_from_slice(&[
        0x00, 0x01, 0x30, 0x07, 0x01, 0x16, 0x11, 0x26, 0x00, 0xFC, 0xA0, 0xC0, 0x47, 0x30, 0x00, 0x00,
    ]);
    expected[16] = 5;
    expected[17] = 0x01;
    expected[18] = 0x10;
    assert_eq!(board.image, expected);
}

#[test]
fn a_match_in_a_cut_asks_for_both_bits() {
    for (bits, told) in [(0x00, 0x00), (0x20, 0x00), (0x80, 0x00), (0xA0, 0x10)] {
        let mut board = before_alarm();
        board.accept(&[0x50, 0x0A, bits]);
        assert_eq!(board.supply_return(3_600), 0);
        assert_eq!(board.interrupt(), told);
    }
}

#[test]
fn an_old_flag_is_told_again_after_a_cut_and_old_bits_are_not() {
    let mut board = before_alarm();
    board.seconds(1);
    board.press(1);
    assert_eq!(board.interrupt(), 0x90);
    assert_eq!(board.supply_return(0), 0);
    assert_eq!((board.interrupt(), board.image[17]), (0x10, 0x01));
}

#[test]
fn a_stopped_clock_stands_through_a_cut() {
    let mut board = before_alarm();
    board.accept(&[0x50, 0x01, 0xD9]);
    assert_eq!(board.supply_return(86_400), 0);
    assert_eq!(board.image[1..8], [0xD9, 0x29, 0x07, 0x01, 0x16, 0x11, 0x26]);
    assert_eq!((board.image[17], board.interrupt()), (0, 0));
}
