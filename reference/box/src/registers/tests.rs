use super::*;

/// Each listed register of a channel as document 01 writes it: its
/// digit, its letter and its length.
fn check(base: u16, rows: &[(u16, char, usize)]) {
    for digit in 0..16 {
        let row = rows.iter().find(|row| row.0 == digit);
        match (Register::find(base + digit), row) {
            (Ok(register), Some(&(_, letter, length))) => {
                assert_eq!(register.length(), length, "{:x}", base + digit);
                assert_eq!(letter_of(register.access()), letter);
            }
            (Err(number), None) => assert_eq!(number, 2),
            _ => panic!("{:x}", base + digit),
        }
    }
}

fn letter_of(access: Access) -> char {
    match access {
        Access::ReadOnly => 'R',
        Access::Protected => 'P',
        Access::Writable => 'W',
    }
}

#[test]
fn the_service_channel_is_as_listed() {
    let rows = [
        (0x0, 'R', 2),
        (0x3, 'W', 1),
        (0x7, 'R', 4),
        (0x8, 'W', 4),
        (0x9, 'P', 4),
        (0xA, 'P', 4),
        (0xD, 'W', 1),
        (0xF, 'W', 12),
    ];
    check(0, &rows);
}

#[test]
fn every_digital_channel_is_as_listed() {
    let rows = [
        (0x0, 'W', 1),
        (0x1, 'W', 4),
        (0x2, 'W', 4),
        (0x3, 'W', 4),
        (0x4, 'W', 4),
        (0x5, 'W', 4),
        (0x6, 'W', 4),
        (0x7, 'P', 4),
        (0x8, 'P', 4),
        (0x9, 'P', 4),
        (0xA, 'P', 4),
        (0xB, 'P', 4),
        (0xC, 'P', 8),
        (0xD, 'P', 4),
        (0xF, 'R', 4),
    ];
    for channel in 1..=16 {
        check(channel * 0x10, &rows);
    }
}

#[test]
fn the_common_channel_is_as_listed() {
    let rows = [(0x0, 'W', 2), (0x1, 'W', 2), (0x2, 'R', 4), (0xF, 'R', 4)];
    check(0x110, &rows);
}

/// Change 1: RealA, RealB, TimerA, TimerB, LookUp1 and LookUp2, "at the
/// manual's numbers".
#[test]
fn the_data_channel_is_as_listed() {
    let rows = [
        (0x0, 'W', 4),
        (0x1, 'W', 4),
        (0xA, 'W', 4),
        (0xB, 'W', 4),
        (0xC, 'P', 80),
        (0xD, 'P', 80),
    ];
    check(0x130, &rows);
}

/// Change 1: "SWNos of $12 answer 2."
#[test]
fn the_calculator_has_no_register() {
    check(0x120, &[]);
}

/// Change 1: "The highest SWNo is $13F".
#[test]
fn above_the_highest_swno_comes_number_1() {
    assert_eq!(Register::find(0x13F), Err(2));
    for swno in [0x140, 0x14F, 0x150, 0x1000, 0x1130, 0xFFFF] {
        assert_eq!(Register::find(swno), Err(1));
    }
}

#[test]
fn a_digital_register_carries_its_channel_index() {
    assert_eq!(
        Register::find(0x102),
        Ok(Register::Digital(15, Digital::Counter))
    );
}
