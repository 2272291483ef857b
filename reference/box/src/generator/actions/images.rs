//! Images: stored, powered up from, and damaged.

use super::refusals::wild_functions;
use super::surveys::survey_data;
use crate::generator::script::Script;
use crate::generator::values;
use crate::image::{self, LENGTH};

pub fn store(script: &mut Script) {
    let longer = script.random.pick(&[0, 0, 0, 1, 10]);
    script.store(LENGTH + longer);
}

/// Buffers one byte shorter, as long and one byte longer than an image.
pub fn store_closely(script: &mut Script) {
    for length in [LENGTH - 1, LENGTH, LENGTH + 1] {
        script.store(length);
    }
}

pub fn power(script: &mut Script) {
    let image = allowed_image(script);
    script.power(&image);
}

/// Change 1: "Images of 717 bytes load with zeros there, and storing writes
/// the long one".
pub fn power_old_and_store(script: &mut Script) {
    let image = values::settings(&mut script.random, &script.focus, script.flavour);
    script.power(&image.encode_old());
    survey_data(script);
    script.lookup(1, 0);
    script.store(LENGTH);
}

/// An image of either length.
fn allowed_image(script: &mut Script) -> Vec<u8> {
    let settings = values::settings(&mut script.random, &script.focus, script.flavour);
    if script.random.chance(1, 3) {
        settings.encode_old().to_vec()
    } else {
        settings.encode().to_vec()
    }
}

/// An image that is refused, most often: by 10, 11, 12 or 13.
pub fn power_damaged(script: &mut Script) {
    let mut image = allowed_image(script);
    match script.random.below(6) {
        0 => image = of_other_length(script, image),
        1 => {
            let counts: &[usize] = match image.len() {
                LENGTH => &[0, 9, 714, 883, 883],
                _ => &[0, 9, 714],
            };
            let count = script.random.pick(counts);
            image[count] = script.random.pick(&[0, 2, 15, 17, 255]);
            seal_or_not(script, &mut image);
        }
        2 => {
            let offset = script.random.below(image.len() as u64) as usize;
            image[offset] ^= 1 << script.random.below(8);
        }
        3 if image.len() == LENGTH => {
            damage_data(script, &mut image);
            seal_or_not(script, &mut image);
        }
        _ => {
            damage_value(script, &mut image);
            seal_or_not(script, &mut image);
        }
    }
    script.power(&image);
}

/// An image that is refused by 10, most often.
pub fn power_of_other_length(script: &mut Script) {
    let image = allowed_image(script);
    let other = of_other_length(script, image);
    script.power(&other);
}

/// Cut or made longer, now and then from one good length to the other. With
/// a right sum, the long one cut so is an old image.
fn of_other_length(script: &mut Script, image: Vec<u8>) -> Vec<u8> {
    let near = script.random.pick(&[0, 716, 717, 718, 885, 886, 887]);
    let length = match script.random.below(4) {
        0 => script.random.pick(&[1, 9, 10, 715, 800, 884, 903]),
        _ => near,
    };
    let mut other: Vec<u8> = image.into_iter().cycle().take(length).collect();
    if length > 2 && script.random.chance(1, 2) {
        image::seal(&mut other);
    }
    other
}

fn seal_or_not(script: &mut Script, image: &mut [u8]) {
    if script.random.chance(7, 8) {
        image::seal(image);
    }
}

/// One Real of the data section at an end, which often is not finite: RealA or
/// RealB, or any.
fn damage_data(script: &mut Script, image: &mut [u8]) {
    let real = match script.random.below(2) {
        0 => values::end_real(&mut script.random),
        _ => script.random.pick(&[0x7F80_0000, 0xFF80_0000, 0x7FC0_0000]),
    };
    let reals = script.random.pick(&[2, 42]);
    let offset = 715 + 4 * script.random.below(reals) as usize;
    image[offset..offset + 4].copy_from_slice(&real.to_be_bytes());
}

/// Puts a value that doesn't suit, or one just suiting, into one field.
fn damage_value(script: &mut Script, image: &mut [u8]) {
    let entry = 10 + 44 * script.random.below(16) as usize;
    let functions = wild_functions(script);
    let random = &mut script.random;
    match random.below(7) {
        0 => image[2] = functions,
        1 => image[5] |= 0x80,
        2 => image[entry + 1] = functions,
        3 => image[entry + 2 + random.below(2) as usize] = random.pick(&[16, 17, 18, 128, 255]),
        4 => image[entry + 4 + 4 * random.below(2) as usize] |= 0x80,
        _ => {
            let limit = entry + 12 + 4 * random.below(2) as usize;
            let real = values::end_real(random).to_be_bytes();
            image[limit..limit + 4].copy_from_slice(&real);
        }
    }
}
