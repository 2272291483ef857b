//! What comes back after a power cut, and after a reset.

use crate::boxes::{read, simulated, ticks, write};
use crate::data::{registers, Row};
use pd3120::registers::{RESET_START, SWNO_RESET};
use pd3120::Pd3120;

const NO: &str = "no";
const WRITTEN: &str = "at each write";
const ENABLED: &str = "at a write with WriteEnable TRUE";
const SAVED: &str = "every ten hours, and at a write with WriteEnable TRUE";

/// The ticks of ten hours.
const SAVE: usize = 1_152_000;

/// A value that the register shows, and that is not the one it starts with.
fn value(row: &Row) -> Vec<u8> {
    let half = 0.5_f32.to_be_bytes();
    match row.type_ {
        "Real" | "pairs of Reals" => half.repeat(row.size / 4),
        "signed 32 bits" => vec![0x80, 0, 0, 1],
        "config" => vec![1, 0x10, 2, 3],
        "Boolean" => vec![1],
        "byte" | "bits" => vec![0xFF; row.size],
        "bytes" => (1..=row.size as u8).collect(),
        "errors" => vec![0; row.size],
        other => panic!("no type is called {other}"),
    }
}

/// Whether the register shows what was written. WDTimer is WDPreset again, Reset
/// reads 0, and CommonError is written to acknowledge.
fn shows(row: &Row) -> bool {
    !matches!(row.constant, "WD_TIMER" | "RESET" | "COMMON_ERROR")
}

fn writable() -> Vec<Row> {
    let mut rows = registers();
    rows.retain(Row::is_writable);
    rows
}

fn powered_up(module: &Pd3120) -> Pd3120 {
    Pd3120::power_up(&module.image()).expect("a stored image is accepted")
}

fn reset(module: &Pd3120) -> Pd3120 {
    let mut after = module.clone();
    write(&mut after, SWNO_RESET, &[RESET_START]);
    after
}

/// Writes a register of a box and starts the box again.
fn written(row: &Row, swno: u16, enable: bool, comes_back: bool) {
    let before = simulated(enable);
    let mut module = before.clone();
    write(&mut module, swno, &value(row));
    let (old, new) = (read(&powered_up(&before), swno), read(&module, swno));
    if shows(row) {
        assert_ne!(new, old, "the write shows: {row:?}");
    }
    let expected = if comes_back { &new } else { &old };
    assert_eq!(
        &read(&powered_up(&module), swno),
        expected,
        "power cut: {row:?}"
    );
    // His of CommonError tells a reset from a power cut.
    if row.constant != "COMMON_ERROR" {
        assert_eq!(&read(&reset(&module), swno), expected, "reset: {row:?}");
    }
}

#[test]
fn a_written_value_is_kept_as_the_row_says() {
    for row in writable() {
        assert!(shows(&row) || row.kept == NO, "{row:?}");
        for enable in [false, true] {
            let comes_back = match row.kept {
                NO => false,
                WRITTEN => true,
                ENABLED | SAVED => enable,
                other => panic!("nothing keeps {other}"),
            };
            if row.is_protected() && !enable {
                continue;
            }
            for swno in row.swnos() {
                written(&row, swno, enable, comes_back);
            }
        }
    }
}

/// Protected is kept at each write, and nothing else is.
#[test]
fn what_is_read_only_is_not_kept() {
    for row in registers() {
        assert_eq!(row.kept == WRITTEN, row.is_protected(), "{row:?}");
        assert!(row.is_writable() || row.kept == NO, "{row:?}");
    }
}

/// Without WriteEnable, the ten hours keep what the row says and nothing else.
#[test]
fn ten_hours_keep_what_the_row_says() {
    let before = simulated(false);
    let mut module = before.clone();
    let not_protected =
        |row: &Row| !row.is_protected() && !matches!(row.constant, "RESET" | "WRITE_ENABLE");
    let rows: Vec<Row> = writable().into_iter().filter(not_protected).collect();
    let places: Vec<(&Row, u16)> = rows
        .iter()
        .flat_map(|row| row.swnos().into_iter().map(move |swno| (row, swno)))
        .collect();
    for (row, swno) in &places {
        write(&mut module, *swno, &value(row));
    }
    ticks(&mut module, SAVE - 1);
    assert_eq!(
        module.image(),
        before.image(),
        "a tick before the ten hours"
    );
    ticks(&mut module, 1);
    let (again, fresh) = (powered_up(&module), powered_up(&before));
    for (row, swno) in places {
        let expected = if row.kept == SAVED { &module } else { &fresh };
        assert_eq!(
            read(&again, swno),
            read(expected, swno),
            "${swno:X} {row:?}"
        );
        if row.kept == SAVED {
            assert_ne!(read(&again, swno), read(&fresh, swno), "${swno:X} {row:?}");
        }
    }
}

/// "What is not kept is then 0", but for what the page names.
#[test]
fn what_is_not_kept_starts_at_0() {
    let mut module = simulated(true);
    let preset = 8_f32.to_be_bytes();
    write(&mut module, 0x00A, &preset);
    ticks(&mut module, 40);
    let again = powered_up(&module);
    for row in registers().iter().filter(|row| row.kept == NO) {
        for swno in row.swnos() {
            let expected = match row.constant {
                "NUMBER_OF_SWNO" => vec![0x01, 0x3F],
                "WD_TIMER" => preset.to_vec(),
                "COMMON_ERROR" => [vec![0x80], vec![0; 11]].concat(),
                _ => vec![0; row.size],
            };
            assert_eq!(read(&again, swno), expected, "{row:?}");
        }
    }
}
