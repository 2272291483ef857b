//! Change 1: the data channel and lookups.

use super::ticks::few_ticks;
use super::DATA;
use crate::generator::script::Script;
use crate::generator::values;
use crate::image::LENGTH;

const REALS: &[u16] = &[0x130, 0x131];
const TIMERS: &[u16] = &[0x13A, 0x13B];
const TABLES: &[u16] = &[0x13C, 0x13D];

pub fn read_data(script: &mut Script) {
    let swno = script.random.pick(DATA);
    script.read_register(swno);
}

pub fn write_data(script: &mut Script) {
    let swno = script.random.pick(DATA);
    script.write_suiting(swno);
}

pub fn write_table(script: &mut Script) {
    let swno = script.random.pick(TABLES);
    script.write_suiting(swno);
}

/// A lookup in table 1 or 2, mostly, of an X that suits it.
pub fn lookup(script: &mut Script) {
    let any = script.random.byte();
    let table = script
        .random
        .weighted(&[(8, 1), (8, 2), (1, 0), (1, 3), (1, 255), (1, any)]);
    lookup_in(script, table);
}

fn lookup_in(script: &mut Script, table: u8) {
    let known = script.table(table);
    let x = values::x_for(&mut script.random, &known);
    script.lookup(table, x);
}

/// A new table with many lookups in it.
pub fn table_with_lookups(script: &mut Script) {
    let table = script.random.pick(&[1, 2]);
    script.write_suiting(0x13B + u16::from(table));
    for _ in 0..script.random.within(4, 16) {
        lookup_in(script, table);
    }
}

/// Lookups between ticks: no wire calls, so that WDTimer goes on.
pub fn lookup_between_ticks(script: &mut Script) {
    few_ticks(script);
    lookup(script);
    if script.random.chance(1, 2) {
        refused_lookup(script);
        few_ticks(script);
    }
    script.read(0x08, 4);
}

/// A lookup that is refused, most often: by 15, by 7, or by 15 before 7.
pub fn refused_lookup(script: &mut Script) {
    let table = script.random.pick(&[0, 1, 2, 3, 4, 128, 255]);
    let x = script
        .random
        .pick(&[0x7F80_0000, 0xFF80_0000, 0x7FC0_0000, 0xFF80_0001, 0]);
    script.lookup(table, x);
}

/// A table that is refused, most often: by 4, 6 or 7, or by the first of them.
pub fn refused_table(script: &mut Script) {
    let swno = script.random.pick(TABLES);
    let mut bytes = values::table(&mut script.random).to_bytes().to_vec();
    if script.random.chance(1, 2) {
        put_end_real(script, &mut bytes);
    }
    if script.random.chance(1, 4) {
        let length = script.random.pick(&[0, 4, 8, 76, 79, 81, 84, 160]);
        bytes = bytes.into_iter().cycle().take(length).collect();
    }
    if script.random.chance(1, 4) {
        script.write(0x0D, &[0]);
        script.write(swno, &bytes);
    } else {
        script.write_with_enable(swno, &bytes);
    }
    if script.random.chance(1, 4) {
        script.read_register(swno);
    }
}

/// One Real of a table at an end, which often is not finite.
fn put_end_real(script: &mut Script, table: &mut [u8]) {
    let real = match script.random.below(2) {
        0 => values::end_real(&mut script.random),
        _ => script
            .random
            .pick(&[0x7F80_0000, 0xFF80_0000, 0x7FC0_0000, 0xFFFF_FFFF]),
    };
    let offset = 4 * script.random.below(table.len() as u64 / 4) as usize;
    table[offset..offset + 4].copy_from_slice(&real.to_be_bytes());
}

/// Values at the ends of ranges, −0 and those that are none.
pub fn write_end_data(script: &mut Script) {
    let swno = script.random.pick(DATA);
    if TABLES.contains(&swno) {
        return refused_table(script);
    }
    let real = values::end_real(&mut script.random);
    script.write_word(swno, real);
    script.read(swno, 4);
}

/// RealA or RealB, with WriteEnable and without, and what is left of it, and
/// of a timer, after a reset, some ticks or neither.
pub fn keep_data(script: &mut Script) {
    for _ in 0..script.random.within(1, 3) {
        let enable = u8::from(script.random.chance(1, 2));
        script.write(0x0D, &[enable]);
        let swno = script.random.pick(REALS);
        script.write_suiting(swno);
    }
    match script.random.below(4) {
        0 => few_ticks(script),
        1 => script.store(LENGTH),
        _ => script.write(0x03, &[0xFF]),
    }
    let timer = script.random.pick(TIMERS);
    for swno in [0x130, 0x131, timer] {
        script.read_register(swno);
    }
}

/// RealA and RealB through the ten-hour save, which keeps RealA alone and
/// doesn't look at WriteEnable; a reset shows what was kept.
pub fn save_data(script: &mut Script) {
    if script.long_runs == 0 {
        return keep_data(script);
    }
    script.long_runs -= 1;
    script.write(0x0D, &[0]);
    for &swno in REALS {
        script.write_suiting(swno);
    }
    let enable = script.random.chance(1, 3);
    if enable {
        script.write(0x0D, &[1]);
    }
    let count = script.ticks_to_save();
    script.tick(count.saturating_sub(2).max(1));
    for _ in 0..3 {
        if !enable {
            script.write_suiting(0x130);
        }
        script.store(LENGTH);
        script.tick(1);
    }
    script.store(LENGTH);
    if script.random.chance(3, 4) {
        script.write(0x03, &[0xFF]);
    }
    for &swno in REALS {
        script.read_register(swno);
    }
}

/// TimerA or TimerB, often at its low end, with ticks that carry it on.
pub fn count_data_timer(script: &mut Script) {
    let swno = script.random.pick(TIMERS);
    if script.random.chance(1, 3) {
        script.write_word(swno, 0xCB00_0000);
    } else {
        script.write_suiting(swno);
    }
    for _ in 0..script.random.within(1, 3) {
        few_ticks(script);
        script.read(swno, 4);
    }
}

/// SWNos beside the data channel's, read and written.
pub fn beside_data(script: &mut Script) {
    let swno = match script.random.below(5) {
        0 => script.random.within(0x120, 0x12F) as u16,
        1 => script.random.within(0x132, 0x139) as u16,
        2 => script.random.pick(&[0x13E, 0x13F]),
        3 => script.random.pick(&[0x140, 0x141, 0x14A, 0x230, 0x1130]),
        _ => script.random.within(0x11F, 0x140) as u16,
    };
    let length = script.random.pick(&[0, 1, 2, 4, 8, 12, 80]);
    if script.random.chance(1, 2) {
        script.read(swno, length);
    } else {
        let bytes = script.random.bytes(length);
        script.write(swno, &bytes);
    }
}

/// Reads of the data channel's registers with buffers about their length.
pub fn read_data_closely(script: &mut Script) {
    let (swno, lengths) = match script.random.below(2) {
        0 => (script.random.pick(&DATA[..4]), [0, 3, 4, 5]),
        _ => (script.random.pick(TABLES), [4, 79, 80, 81]),
    };
    let length = script.random.pick(&lengths);
    script.read(swno, length);
}
