//! Change 4: "Water charge from two readings." Charges with readings that the
//! box had and with others, about block borders and half cents, and refused.

use super::ticks::few_ticks;
use crate::generator::script::Script;
use crate::generator::values::{self, Blocks};
use crate::player::Charge;

/// A charge between two readings.
fn put(script: &mut Script, earlier: i32, later: i32, litres_per_pulse: u32, blocks: &Blocks) {
    script.charge(Charge {
        earlier,
        later,
        litres_per_pulse,
        limits: blocks.limits.clone(),
        prices: blocks.prices.clone(),
    });
}

/// A charge of so many pulses, from any reading on.
fn put_pulses(script: &mut Script, pulses: u32, litres_per_pulse: u32, blocks: &Blocks) {
    let earlier = values::reading(&mut script.random);
    let later = earlier.wrapping_add(pulses as i32);
    put(script, earlier, later, litres_per_pulse, blocks);
}

/// Pulses, litres per pulse, and the litres of both.
fn amount(script: &mut Script) -> (u32, u32, u64) {
    let pulses = values::pulses(&mut script.random);
    let litres = values::litres_per_pulse(&mut script.random);
    (pulses, litres, u64::from(pulses) * u64::from(litres))
}

/// A charge whose limits lie about its litres.
pub fn charge(script: &mut Script) {
    let (pulses, litres, all) = amount(script);
    let blocks = values::blocks(&mut script.random, all);
    put_pulses(script, pulses, litres, &blocks);
}

/// A few litres in blocks of a few, so that the sum is rounded and not its
/// parts.
pub fn charge_few_litres(script: &mut Script) {
    let blocks = values::small_blocks(&mut script.random);
    let litres = script.random.pick(&[1, 1, 1, 2, 3]);
    for _ in 0..script.random.within(1, 3) {
        let pulses = script.random.below(10) as u32;
        put_pulses(script, pulses, litres, &blocks);
    }
}

/// Sums that end at half a cent and one hundredth beside it.
pub fn charge_half(script: &mut Script) {
    let (pulses, litres, all) = amount(script);
    if pulses == 0 {
        return charge_few_litres(script);
    }
    for _ in 0..script.random.within(1, 3) {
        let ending = script.random.pick(&[49, 50, 50, 51, 0, 99]);
        let blocks = values::blocks_ending(&mut script.random, all, ending);
        put_pulses(script, pulses, litres, &blocks);
    }
}

/// "With the same blocks and litres per pulse, more pulses never cost less."
/// The same blocks, then one more pulse, and now and then one more.
pub fn charge_one_more(script: &mut Script) {
    let (pulses, litres, all) = amount(script);
    let blocks = values::blocks(&mut script.random, all);
    let earlier = values::reading(&mut script.random);
    for more in 0..script.random.pick(&[2, 2, 3]) {
        let pulses = pulses.saturating_add(more);
        let later = earlier.wrapping_add(pulses as i32);
        put(script, earlier, later, litres, &blocks);
    }
}

/// One pulse before a border, at it and after it. The border is a number of
/// whole pulses, or one litre beside it.
pub fn charge_about_border(script: &mut Script) {
    let (pulses, litres, all) = amount(script);
    let mut blocks = values::blocks(&mut script.random, all);
    let border = (all + script.random.below(3)).saturating_sub(1);
    if !blocks.limits.contains(&border) && !blocks.limits.is_empty() {
        let place = script.random.below(blocks.limits.len() as u64) as usize;
        blocks.limits[place] = border;
        blocks.limits.sort_unstable();
    }
    for pulses in [pulses.saturating_sub(1), pulses, pulses.saturating_add(1)] {
        put_pulses(script, pulses, litres, &blocks);
    }
}

/// One price in all blocks, then one block with it: the charge is the same.
pub fn charge_one_price(script: &mut Script) {
    let (pulses, litres, all) = amount(script);
    let mut blocks = values::blocks(&mut script.random, all);
    let price = values::price(&mut script.random);
    blocks.prices.fill(price);
    put_pulses(script, pulses, litres, &blocks);
    blocks.limits.clear();
    blocks.prices.truncate(1);
    put_pulses(script, pulses, litres, &blocks);
}

/// The largest charge, and those close to it.
pub fn charge_most(script: &mut Script) {
    let pulses = u32::MAX - script.random.pick(&[0, 0, 0, 1]);
    let litres = script.random.pick(&[10_000, 10_000, 10_000, 9_999]);
    let all = u64::from(pulses) * u64::from(litres);
    let mut blocks = values::blocks(&mut script.random, all);
    for price in &mut blocks.prices {
        *price = script.random.pick(&[100_000, 100_000, 100_000, 99_999, 0]);
    }
    put_pulses(script, pulses, litres, &blocks);
}

/// A charge that is refused: by 16, by 17, or by 16 before 17.
pub fn refused_charge(script: &mut Script) {
    let (pulses, litres, all) = amount(script);
    let random = &mut script.random;
    let (bad_litres, bad_blocks) = random.pick(&[
        (true, false),
        (false, true),
        (false, true),
        (false, true),
        (true, true),
    ]);
    let litres = match bad_litres {
        true => values::refused_litres(random),
        false => litres,
    };
    let blocks = match bad_blocks {
        true => values::refused_blocks(random, all),
        false => values::blocks(random, all),
    };
    put_pulses(script, pulses, litres, &blocks);
}

/// Two readings of a channel's Counter with pulses between them, and the charge
/// from what they gave; now and then the other way round too.
pub fn charge_readings(script: &mut Script) {
    let channel = script.channel();
    let swno = u16::from(channel) * 0x10;
    if script.random.chance(1, 2) {
        let count = values::reading(&mut script.random);
        script.write_word(swno + 2, count as u32);
    }
    let earlier = read_counter(script, channel);
    for _ in 0..script.random.below(5) {
        for on in [true, false] {
            script.sample_level(channel, on);
            if script.random.chance(1, 2) {
                script.write(swno, &[u8::from(on) << 6]);
            }
        }
    }
    if script.random.chance(1, 4) {
        few_ticks(script);
    }
    let later = read_counter(script, channel);
    charge_between(script, earlier, later);
    if script.random.chance(1, 4) {
        charge_between(script, later, earlier);
    }
}

/// Reads Counter, and gives what the read gives.
fn read_counter(script: &mut Script, channel: u8) -> i32 {
    let counter = script.counter(channel);
    script.read_register(u16::from(channel) * 0x10 + 2);
    counter
}

fn charge_between(script: &mut Script, earlier: i32, later: i32) {
    let litres = values::litres_per_pulse(&mut script.random);
    let pulses = crate::charge::pulses(earlier, later);
    let all = u64::from(pulses) * u64::from(litres);
    let blocks = values::blocks(&mut script.random, all);
    put(script, earlier, later, litres, &blocks);
}

/// A charge is no wire call: the watchdog runs on, and no tick is marked.
pub fn charge_between_ticks(script: &mut Script) {
    few_ticks(script);
    charge(script);
    if script.random.chance(1, 2) {
        refused_charge(script);
        few_ticks(script);
    }
    script.read(0x08, 4);
}

#[cfg(test)]
mod tests;
