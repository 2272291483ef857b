//! The setup image.
//!
//! "717 bytes, sections each after a count byte: 1, ModuleConfig, WDPreset;
//! 16, per channel registers 9, 7, 8, A, B, C, D, 5, 2, 4, with times and
//! operating time as counts; 1, the 2-byte sum of all earlier bytes (this 1
//! too) modulo 65536."
//!
//! Change 1: "The image gains a section before the sum: count 1, RealA, RealB,
//! both tables; 886 bytes. Images of 717 bytes load with zeros there, and
//! storing writes the long one and needs its length".

use crate::channel::{Config, Kept};
use crate::data::{KeptData, LookUp};
use crate::reals;
use crate::CHANNELS;

/// The length of an image as it is stored.
pub const LENGTH: usize = 886;
/// The length of an image without the data section, which still loads.
pub const OLD_LENGTH: usize = 717;

/// Where each section's count stands, and what it is: ModuleConfig's, the
/// channels', the data's and the sum's.
const SECTION_COUNTS: [(usize, u8); 4] = [(0, 1), (9, CHANNELS as u8), (714, 1), (883, 1)];
/// The same in an old image, where the sum follows the channels.
const OLD_SECTION_COUNTS: [(usize, u8); 3] = [(0, 1), (9, CHANNELS as u8), (714, 1)];
const FIRST_CHANNEL: usize = 10;
const DATA: usize = 715;
/// The length of the sum, which ends an image.
const SUM: usize = 2;

/// What an image holds: the kept values of the whole box.
#[derive(Clone, Copy, Debug, Default, PartialEq, Eq)]
pub struct Settings {
    pub module_config: Config,
    pub wd_preset: i32,
    pub channels: [Kept; CHANNELS],
    pub data: KeptData,
}

impl Settings {
    /// The settings of an image, or the number of its refusal.
    pub fn decode(image: &[u8]) -> Result<Settings, u8> {
        let counts = section_counts(image.len()).ok_or(10)?;
        if counts.iter().any(|&(offset, count)| image[offset] != count) {
            return Err(11);
        }
        if !image.ends_with(&sum(image)) {
            return Err(12);
        }
        let settings = Settings::take(image);
        if settings.are_allowed() {
            Ok(settings)
        } else {
            Err(13)
        }
    }

    fn take(image: &[u8]) -> Settings {
        let mut service = Reader(&image[1..]);
        let mut entries = Reader(&image[FIRST_CHANNEL..]);
        Settings {
            module_config: Config::from_bytes(service.take()),
            wd_preset: i32::from_be_bytes(service.take()),
            channels: std::array::from_fn(|_| take_entry(&mut entries)),
            data: match image.len() {
                LENGTH => take_data(&mut Reader(&image[DATA..])),
                _ => KeptData::default(),
            },
        }
    }

    /// The image of these settings, its sum worked out.
    pub fn encode(&self) -> [u8; LENGTH] {
        let mut image = self.front();
        put_data(&mut image, &self.data);
        ended(image).try_into().expect("sections of 886 bytes")
    }

    /// The image that a box before Change 1 stored, without the data.
    pub fn encode_old(&self) -> [u8; OLD_LENGTH] {
        let ended = ended(self.front());
        ended.try_into().expect("sections of 717 bytes")
    }

    /// The sections of ModuleConfig and of the channels.
    fn front(&self) -> Vec<u8> {
        let mut image = Vec::with_capacity(LENGTH);
        image.push(1);
        image.extend(self.module_config.to_bytes());
        image.extend(self.wd_preset.to_be_bytes());
        image.push(CHANNELS as u8);
        for kept in &self.channels {
            put_entry(&mut image, kept);
        }
        image
    }

    /// "Values allowed (preset counts 0 to 2147483647, Counter and operating
    /// count any, the rest as for 7)?"
    fn are_allowed(&self) -> bool {
        self.module_config.is_allowed_for_module()
            && self.wd_preset >= 0
            && self.channels.iter().all(is_allowed_entry)
            && self.data.is_allowed()
    }
}

fn is_allowed_entry(kept: &Kept) -> bool {
    kept.config.is_allowed_for_channel()
        && kept.fb_preset >= 0
        && kept.out_preset >= 0
        && reals::is_limit(kept.min_current)
        && reals::is_limit(kept.max_current)
}

/// The counts of an image of some length, where there is such a length.
fn section_counts(length: usize) -> Option<&'static [(usize, u8)]> {
    match length {
        LENGTH => Some(&SECTION_COUNTS),
        OLD_LENGTH => Some(&OLD_SECTION_COUNTS),
        _ => None,
    }
}

/// "the 2-byte sum of all earlier bytes (this 1 too) modulo 65536".
fn sum(image: &[u8]) -> [u8; SUM] {
    let total = image[..image.len() - SUM]
        .iter()
        .fold(0_u16, |total, &byte| total.wrapping_add(u16::from(byte)));
    total.to_be_bytes()
}

/// Puts the right sum into an image, whichever length it has.
pub fn seal(image: &mut [u8]) {
    let sum = sum(image);
    let place = image.len() - SUM;
    image[place..].copy_from_slice(&sum);
}

/// Sections with that of the sum after them.
fn ended(mut image: Vec<u8>) -> Vec<u8> {
    image.push(1);
    image.extend([0; SUM]);
    seal(&mut image);
    image
}

/// Bytes taken from the front, a field at a time.
struct Reader<'a>(&'a [u8]);

impl Reader<'_> {
    fn take<const N: usize>(&mut self) -> [u8; N] {
        let (field, rest) = self.0.split_at(N);
        self.0 = rest;
        field.try_into().expect("a field of N bytes")
    }
}

/// "per channel registers 9, 7, 8, A, B, C, D, 5, 2, 4".
fn take_entry(entries: &mut Reader) -> Kept {
    Kept {
        config: Config::from_bytes(entries.take()),
        fb_preset: i32::from_be_bytes(entries.take()),
        out_preset: i32::from_be_bytes(entries.take()),
        min_current: u32::from_be_bytes(entries.take()),
        max_current: u32::from_be_bytes(entries.take()),
        user_reals: entries.take(),
        maintenance: entries.take(),
        user_bytes: entries.take(),
        counter: i32::from_be_bytes(entries.take()),
        operating: u32::from_be_bytes(entries.take()),
    }
}

fn put_entry(image: &mut Vec<u8>, kept: &Kept) {
    image.extend(kept.config.to_bytes());
    image.extend(kept.fb_preset.to_be_bytes());
    image.extend(kept.out_preset.to_be_bytes());
    image.extend(reals::as_read(kept.min_current).to_be_bytes());
    image.extend(reals::as_read(kept.max_current).to_be_bytes());
    image.extend(kept.user_reals);
    image.extend(kept.maintenance);
    image.extend(kept.user_bytes);
    image.extend(kept.counter.to_be_bytes());
    image.extend(kept.operating.to_be_bytes());
}

/// "count 1, RealA, RealB, both tables"; the count is judged before.
fn take_data(data: &mut Reader) -> KeptData {
    KeptData {
        real_a: u32::from_be_bytes(data.take()),
        real_b: u32::from_be_bytes(data.take()),
        tables: std::array::from_fn(|_| LookUp::from_bytes(&data.take())),
    }
}

fn put_data(image: &mut Vec<u8>, kept: &KeptData) {
    image.push(1);
    image.extend(reals::as_read(kept.real_a).to_be_bytes());
    image.extend(reals::as_read(kept.real_b).to_be_bytes());
    image.extend(kept.tables.iter().flat_map(|table| table.to_bytes()));
}

#[cfg(test)]
mod tests;
