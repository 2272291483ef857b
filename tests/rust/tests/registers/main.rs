//! Every row of `docs/registers.tsv`, on every channel of its group, against the
//! proved library: its size by reads, its access by the numbers 3 and 6, its length
//! by 4, its range by 7, what is kept, what reading changes, and the bits by name.
//! `docs/REGISTERS.md` and the constants of C and Rust are made from that file.

mod bits;
mod boxes;
mod data;
mod fields;
mod kept;
mod names;
mod ranges;
mod reading;
mod units;

use boxes::{enabled, number, read};
use data::{registers, Row};
use pd3120::Pd3120;

const CANARY: u8 = 0xA5;

/// A value that the row allows; of one that is read only, zeros.
fn allowed(row: &Row) -> Vec<u8> {
    if !row.is_writable() {
        return vec![0; row.size];
    }
    let tried = ranges::tried(row).into_iter();
    let mut accepted = tried.filter(|(_, accepted)| *accepted);
    accepted.next().expect("some value is allowed").0
}

#[test]
fn a_read_answers_the_size_and_fills_no_more() {
    for row in registers() {
        for swno in row.swnos() {
            for room in [row.size, row.size + 1, 200] {
                let mut buffer = vec![CANARY; room];
                let answer = Pd3120::default().read(swno, &mut buffer);
                let length = answer.unwrap_or_else(|e| panic!("{row:?}: {e}")).length;
                assert_eq!(length, row.size, "{row:?}");
                assert!(buffer[row.size..].iter().all(|&b| b == CANARY), "{row:?}");
            }
        }
    }
}

#[test]
fn a_shorter_buffer_is_refused_by_5() {
    for row in registers() {
        for swno in row.swnos() {
            for room in [0, row.size - 1] {
                let mut buffer = vec![CANARY; room];
                let answered = number(Pd3120::default().read(swno, &mut buffer));
                assert_eq!(answered, 5, "{row:?}");
                assert_eq!(buffer, vec![CANARY; room], "{row:?}");
            }
        }
    }
}

/// R by 3; P by 6 while WriteEnable is FALSE, and not while it is TRUE.
#[test]
fn access_is_that_of_the_row() {
    for row in registers() {
        let bytes = allowed(&row);
        let (without, with) = match row.access {
            "R" => (3, 3),
            "W" => (0, 0),
            "P" => (6, 0),
            other => panic!("no access is called {other}"),
        };
        for swno in row.swnos() {
            let answered = number(Pd3120::default().write(swno, &bytes));
            assert_eq!(answered, without, "WriteEnable FALSE: {row:?}");
            let answered = number(enabled().write(swno, &bytes));
            assert_eq!(answered, with, "WriteEnable TRUE: {row:?}");
        }
    }
}

/// By 4, before WriteEnable is asked; of what is read only, by 3.
#[test]
fn another_length_is_refused() {
    for row in registers() {
        let expected = if row.is_writable() { 4 } else { 3 };
        for swno in row.swnos() {
            for length in [0, row.size - 1, row.size + 1, 200] {
                for mut module in [Pd3120::default(), enabled()] {
                    let answered = number(module.write(swno, &vec![0; length]));
                    assert_eq!(answered, expected, "{length} bytes: {row:?}");
                }
            }
        }
    }
}

#[test]
fn a_protected_register_asks_for_write_enable_before_its_range() {
    for row in registers().iter().filter(|row| row.is_protected()) {
        let bad = ranges::tried(row).into_iter().filter(|(_, ok)| !ok);
        for (bytes, _) in bad {
            let answered = number(Pd3120::default().write(row.swnos()[0], &bytes));
            assert_eq!(answered, 6, "{row:?}");
        }
    }
}

/// The type agrees with the size, with the range, and with the fields and bits that
/// are told.
#[test]
fn types_fit_the_rest_of_the_row() {
    for row in registers() {
        let parts = |kind| data::parts(kind, row.constant).len();
        let is_real = row.range.contains('x') || row.range == "finite";
        let fits = match row.type_ {
            "Real" => row.size == 4 && is_real,
            "pairs of Reals" => row.size == 80 && is_real,
            "signed 32 bits" => row.size == 4 && matches!(row.range, "any" | "-"),
            "unsigned 16 bits" => row.size == 2 && row.range == "-",
            "Boolean" => row.size == 1 && row.range == "0, 1",
            "byte" => row.size == 1 && row.range == "$FF",
            "bits" => row.range == "any" && (parts("bit") == 8 || row.of == "common"),
            "bytes" => row.range == "any" && parts("bit") == 0 && row.of == "digital",
            "config" => row.range == "by field",
            "errors" => parts("field") >= 2 && row.range != "by field",
            _ => false,
        };
        assert!(fits, "{row:?}");
    }
}

#[test]
fn no_other_swno_has_a_register() {
    let listed: Vec<u16> = registers().iter().flat_map(Row::swnos).collect();
    assert_eq!(listed.len(), 8 + 16 * 15 + 4 + 6, "of documents 01 and 02");
    for swno in (0..=u16::MAX).filter(|swno| !listed.contains(swno)) {
        let expected = if swno > 0x13F { 1 } else { 2 };
        let (mut module, mut buffer) = (enabled(), [0; 200]);
        assert_eq!(
            number(module.read(swno, &mut buffer)),
            expected,
            "${swno:X}"
        );
        assert_eq!(number(module.write(swno, &[0; 4])), expected, "${swno:X}");
    }
}

#[test]
fn no_two_rows_share_a_swno_or_a_constant() {
    let mut swnos: Vec<u16> = registers().iter().flat_map(Row::swnos).collect();
    let mut constants: Vec<&str> = data::rows().iter().map(|row| row.constant).collect();
    constants.retain(|&constant| constant != "-");
    swnos.sort_unstable();
    constants.sort_unstable();
    assert!(swnos.windows(2).all(|pair| pair[0] != pair[1]));
    assert!(constants.windows(2).all(|pair| pair[0] != pair[1]));
}

#[test]
fn the_highest_swno_is_the_one_that_is_read() {
    let highest = data::part("HIGHEST_SWNO").number;
    let swno = data::register("NUMBER_OF_SWNO").on(0);
    assert_eq!(read(&Pd3120::default(), swno), highest.to_be_bytes());
}
