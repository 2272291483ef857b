//! The constants of `include/pd3120_registers.h` and of `pd3120::registers`, as
//! their text has them, against the rows.

use crate::data::{rows, Row};
use pd3120::registers::{channel_bit, com_bit, swno};
use std::collections::{BTreeMap, BTreeSet};

const HEADER: &str = include_str!("../../../../include/pd3120_registers.h");
const RUST: &str = include_str!("../../../../bindings/rust/src/registers.rs");
const OTHER_HEADERS: [&str; 2] = [
    include_str!("../../../../include/pd3120.h"),
    include_str!("../../../../include/pd3120_charge.h"),
];

type Constants = BTreeMap<String, u64>;

fn value(text: &str) -> u64 {
    let parsed = match text.strip_prefix("0x") {
        Some(digits) => u64::from_str_radix(digits, 16),
        None => text.parse(),
    };
    parsed.unwrap_or_else(|_| panic!("no number: {text}"))
}

fn in_header() -> Constants {
    let define = |line: &str| {
        let mut words = line.strip_prefix("#define PD3120_")?.split_whitespace();
        let (name, number) = (words.next()?, words.next()?);
        Some((name.to_string(), value(number)))
    };
    HEADER.lines().filter_map(define).collect()
}

fn in_rust() -> Constants {
    let constant = |line: &str| {
        let (name, rest) = line.strip_prefix("pub const ")?.split_once(": ")?;
        let (_, number) = rest.strip_suffix(';')?.split_once(" = ")?;
        Some((name.to_string(), value(number)))
    };
    RUST.lines().filter_map(constant).collect()
}

/// The constants of a row.
fn of_row(row: &Row) -> Vec<(String, u64)> {
    let (number, constant) = (u64::from(row.number), row.constant);
    match row.kind {
        _ if constant == "-" => vec![],
        "register" => {
            let size = (format!("SIZE_{constant}"), row.size as u64);
            let place = match row.of {
                "digital" => (format!("REG_{constant}"), number),
                _ => (format!("SWNO_{constant}"), u64::from(row.swnos()[0])),
            };
            vec![place, size]
        }
        "field" => vec![(format!("OFFSET_{constant}"), number)],
        "bit" => vec![(constant.to_string(), 1 << number)],
        "value" => vec![(constant.to_string(), number)],
        other => panic!("no kind is called {other}"),
    }
}

fn expected() -> Constants {
    let mut constants: Constants = rows().iter().flat_map(of_row).collect();
    constants.insert("CHANNELS".to_string(), 16);
    constants.insert("SWNO_NONE".to_string(), 0xFFFF);
    constants
}

#[test]
fn the_header_has_the_rows() {
    assert_eq!(in_header(), expected());
}

#[test]
fn the_rust_constants_are_the_rows() {
    assert_eq!(in_rust(), expected());
}

/// Outside the channels and registers there are, no other register is reached.
#[test]
fn numbers_of_no_channel_reach_nothing() {
    for channel in 0..=u8::MAX {
        let digital = (1..=16).contains(&channel);
        for register in 0..=u8::MAX {
            let there = digital && register <= 0xF;
            let number = u16::from(channel) * 16 + u16::from(register);
            let expected = if there { number } else { 0xFFFF };
            assert_eq!(swno(channel, register), expected);
        }
        assert_eq!(channel_bit(channel) != 0, digital);
        assert_eq!(com_bit(channel) != 0, digital || channel == 17);
    }
}

/// A macro would silently stand in the place of a name of another header.
#[test]
fn no_name_is_one_of_another_header() {
    let not_in_names = |c: char| !(c.is_ascii_alphanumeric() || c == '_');
    let taken: BTreeSet<&str> = OTHER_HEADERS
        .iter()
        .flat_map(|text| text.split(not_in_names))
        .collect();
    assert!(taken.contains("PD3120_NO_TABLE") && taken.contains("PD3120_CHARGED"));
    for name in in_header().keys() {
        assert!(!taken.contains(format!("PD3120_{name}").as_str()), "{name}");
    }
}
