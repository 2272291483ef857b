//! The rows of `docs/registers.tsv`.

use std::fs;
use std::sync::OnceLock;

const FILE: &str = concat!(env!("CARGO_MANIFEST_DIR"), "/../../docs/registers.tsv");

/// The whole file, read once.
fn text() -> &'static str {
    static TEXT: OnceLock<String> = OnceLock::new();
    TEXT.get_or_init(|| fs::read_to_string(FILE).expect("docs/registers.tsv is there"))
}

/// A row, by the columns of the file.
#[derive(Clone, Debug)]
pub struct Row {
    pub kind: &'static str,
    pub of: &'static str,
    pub number: u16,
    pub name: &'static str,
    pub constant: &'static str,
    pub access: &'static str,
    /// 0 where the row has none.
    pub size: usize,
    pub type_: &'static str,
    pub unit: &'static str,
    pub range: &'static str,
    pub kept: &'static str,
    pub reading: &'static str,
}

/// A number as the file has them, hexadecimal after `$`.
pub fn number(text: &str) -> Option<u16> {
    match text.strip_prefix('$') {
        Some(digits) => u16::from_str_radix(digits, 16).ok(),
        None => text.parse().ok(),
    }
}

fn row(line: &'static str) -> Row {
    let cells: Vec<&str> = line.split('\t').collect();
    let [kind, of, at, name, constant, access, size, type_, unit, range, kept, reading, about] =
        cells[..]
    else {
        panic!("not 13 columns: {line}");
    };
    assert!(!about.is_empty() && about != "-", "nothing is told: {line}");
    Row {
        kind,
        of,
        number: number(at).unwrap_or_else(|| panic!("no number: {line}")),
        name,
        constant,
        access,
        size: size.parse().unwrap_or(0),
        type_,
        unit,
        range,
        kept,
        reading,
    }
}

/// Every row of the file.
pub fn rows() -> Vec<Row> {
    let mut lines = text().lines().filter(|line| !line.starts_with('#'));
    let head = lines.next().expect("a line of names");
    assert!(head.starts_with("kind\tof\tnumber\tname\t"), "{head}");
    lines.map(row).collect()
}

/// The rows of registers.
pub fn registers() -> Vec<Row> {
    let all = rows();
    all.into_iter().filter(|r| r.kind == "register").collect()
}

/// The row of a register.
pub fn register(constant: &str) -> Row {
    let found = registers().into_iter().find(|r| r.constant == constant);
    found.unwrap_or_else(|| panic!("no register {constant}"))
}

/// The parts of a kind that a register, or a field of one, has.
pub fn parts(kind: &str, of: &str) -> Vec<Row> {
    let all = rows();
    let wanted = |r: &Row| r.kind == kind && r.of == of;
    all.into_iter().filter(wanted).collect()
}

/// A part that has a constant.
pub fn part(constant: &str) -> Row {
    let found = rows().into_iter().find(|r| r.constant == constant);
    found.unwrap_or_else(|| panic!("no row {constant}"))
}

impl Row {
    /// The SWNo of a register on every channel of its group.
    pub fn swnos(&self) -> Vec<u16> {
        let channels = match self.of {
            "service" => 0..=0,
            "digital" => 1..=16,
            "common" => 0x11..=0x11,
            "data" => 0x13..=0x13,
            other => panic!("no channels are called {other}"),
        };
        channels.map(|channel| self.on(channel)).collect()
    }

    /// The SWNo of a register on a channel.
    pub fn on(&self, channel: u16) -> u16 {
        assert!(self.number <= 0xF, "{self:?}");
        channel * 0x10 + self.number
    }

    pub fn is_writable(&self) -> bool {
        match self.access {
            "R" => false,
            "W" | "P" => true,
            other => panic!("no access is called {other}"),
        }
    }

    pub fn is_protected(&self) -> bool {
        self.access == "P"
    }

    /// The mask of a bit.
    pub fn mask(&self) -> u8 {
        assert!(self.kind == "bit" && self.number < 8, "{self:?}");
        1 << self.number
    }
}
