//! The hypotheses of demand 3, asked of two lists however they were made: "Let
//! the lists be equal once the calls for strangers of c are struck, and let the
//! same ticks in both have a wire call since the tick before."

use reference_box::image::Settings;
use reference_box::player::Call;
use reference_box::{ChannelBox, CHANNELS};

/// The register ChConfig of a digital channel.
const CH_CONFIG: u16 = 9;

/// The strangers of c if the hypotheses hold, else the one that does not.
pub fn ask(image: &[u8], channel: u8, first: &[Call], second: &[Call]) -> Result<Vec<u8>, String> {
    let mut named = named_by_image(image, channel)?;
    named.extend(named_by_writes(image, channel, first));
    named.extend(named_by_writes(image, channel, second));
    let strangers: Vec<u8> = (1..=CHANNELS as u8)
        .filter(|other| *other != channel && !named.contains(other))
        .collect();
    if first.iter().chain(second).any(stands_outside) {
        return Err("a list holds what stands outside lists".to_string());
    }
    if struck(first, &strangers) != struck(second, &strangers) {
        return Err("the lists are not equal once strangers' calls are struck".to_string());
    }
    if marks(first) != marks(second) {
        return Err("not the same ticks have a wire call since the tick before".to_string());
    }
    Ok(strangers)
}

/// "Power-up and storing an image stand outside lists." Change 4: so does a
/// charge, which is no call on the box, and `outputs`, a question beside the
/// calls.
fn stands_outside(call: &Call) -> bool {
    matches!(
        call,
        Call::Power(_) | Call::Store(_) | Call::Charge(_) | Call::Outputs
    )
}

fn named_by_image(image: &[u8], channel: u8) -> Result<Vec<u8>, String> {
    let settings = Settings::decode(image)
        .map_err(|number| format!("the image is refused by number {number}"))?;
    let config = settings.channels[usize::from(channel) - 1].config;
    Ok(vec![config.ref_a, config.ref_b])
}

/// What the accepted ChConfig writes to c in a list name.
fn named_by_writes(image: &[u8], channel: u8, list: &[Call]) -> Vec<u8> {
    let mut device = ChannelBox::default();
    device.power_up(image);
    let mut named = Vec::new();
    for call in list {
        match call {
            Call::Write(swno, value) if *swno == u16::from(channel) * 0x10 + CH_CONFIG => {
                if device.write(*swno, value).number == 0 {
                    named.extend_from_slice(&value[2..4]);
                }
            }
            _ => {
                call.make(&mut device);
            }
        }
    }
    named
}

/// A list without the calls for strangers.
fn struck<'a>(list: &'a [Call], strangers: &[u8]) -> Vec<&'a Call> {
    list.iter()
        .filter(|call| {
            let channel = call.channel().unwrap_or(0);
            !strangers.iter().any(|&one| u16::from(one) == channel)
        })
        .collect()
}

/// For each tick whether a wire call came since the tick before, for the first
/// since power-up.
fn marks(list: &[Call]) -> Vec<bool> {
    let mut marks = Vec::new();
    let mut wire = false;
    for call in list {
        match call {
            Call::Read(..) | Call::Write(..) => wire = true,
            Call::Tick(count) => {
                for _ in 0..*count {
                    marks.push(wire);
                    wire = false;
                }
            }
            _ => {}
        }
    }
    marks
}

#[cfg(test)]
mod tests {
    use super::*;
    use crate::pair::Pair;
    use reference_box::channel::Config;

    /// An image whose channel 1 names channel 2.
    fn image() -> Vec<u8> {
        let mut settings = Settings::default();
        settings.channels[0].config = Config::from_bytes([0, 0x10, 2, 0]);
        settings.encode().to_vec()
    }

    fn list(script: &str) -> Vec<Call> {
        let call = |line| Call::parse(str::as_bytes(line)).expect("a call");
        script.split(", ").filter_map(call).collect()
    }

    fn asked(first: &str, second: &str) -> Result<Vec<u8>, String> {
        ask(&image(), 1, &list(first), &list(second))
    }

    #[test]
    fn they_hold_of_hundreds_of_pairs() {
        for seed in 0..500 {
            let pair = Pair::draw(seed, false);
            let strangers = ask(&pair.image, pair.channel, &pair.first, &pair.second);
            assert_eq!(strangers, Ok(pair.strangers), "{seed}");
        }
    }

    #[test]
    fn calls_for_strangers_are_struck() {
        let strangers = asked(
            "sample 3 1 00000000, tick, read 10 00",
            "tick, sample 4 0 40400000, read 10 00",
        );
        assert_eq!(strangers, Ok((3..=16).collect()));
        let strangers = asked(
            "windows 3 7 8, minute 7, windows 2 7 8, windows 17, tick",
            "minute 7, windows 16, windows 4 7 10080, windows 2 7 8, windows 17, tick",
        );
        assert_eq!(strangers, Ok((3..=16).collect()));
        for (first, second) in [
            ("sample 3 1 00000000", "sample 17 1 00000000"),
            ("tick", "tick, tick"),
            ("read 10 00", "read 10 01"),
            (
                "sample 1 1 00000000, sample 2 1 00000000",
                "sample 2 1 00000000, sample 1 1 00000000",
            ),
            ("sample 2 1 00000000", ""),
            ("sample 1 1 00000000", "sample 1 0 00000000"),
            ("sample 1 1 00000000", "sample 1 1 80000000"),
            ("sample 2 1 7f800000", "sample 2 1 ff800000"),
            ("sample 0 1 00000000", ""),
            ("sample 17 1 00000000", ""),
            ("sample 17 1 00000000", "sample 17 0 00000000"),
            ("sample 255 1 7fc00000", "sample 254 1 7fc00000"),
            ("read 0 00", ""),
            ("read 110 00", "sample 3 1 00000000"),
            ("read 130 00", "write 130 00"),
            ("read 13c 00", ""),
            ("read 120 00", ""),
            ("lookup 1 00000000", ""),
            ("lookup 1 00000000", "lookup 1 00000001"),
            ("lookup 3 00000000", "lookup 4 00000000"),
            ("minute 7", ""),
            ("minute 7", "minute 8"),
            ("minute 10080", "minute 10081"),
            ("windows 1 7 8", ""),
            ("windows 1 7 8", "windows 1 7 9"),
            ("windows 2 7 8", "windows 2"),
            ("windows 2 7 10080", "windows 3 7 10080"),
            ("windows 0", ""),
            ("windows 17 7 8", "windows 17"),
            ("windows 0", "windows 3"),
        ] {
            let why = asked(first, second).expect_err(first);
            assert!(why.contains("not equal"), "{first}: {why}");
        }
    }

    #[test]
    fn an_accepted_write_makes_an_acquaintance() {
        let write = "write d 01, write 19 00100003";
        let strangers = asked(write, &format!("{write}, sample 4 1 00000000"));
        assert_eq!(strangers, Ok((4..=16).collect()));
        assert!(asked(write, &format!("sample 3 1 00000000, {write}")).is_err());
        let refused = "write 19 00100003";
        let strangers = asked(refused, &format!("sample 3 1 00000000, {refused}"));
        assert_eq!(strangers, Ok((3..=16).collect()));
    }

    #[test]
    fn the_same_ticks_must_have_a_wire_call() {
        assert!(asked("read 30 -, tick", "sample 4 0 00000000, write 4e 00, tick").is_ok());
        assert!(asked("tick, read 30 00", "tick").is_ok());
        assert!(asked("write 130 -, read 30 00, tick", "write 130 -, tick").is_ok());
        let lookup = "lookup 3 00000000, tick";
        assert!(asked(lookup, &format!("sample 3 1 00000000, {lookup}")).is_ok());
        assert!(asked(lookup, &format!("read 30 00, {lookup}")).is_err());
        let hours = "minute 7, windows 1 7 8, tick";
        assert!(asked(hours, &format!("windows 3 7 8, {hours}")).is_ok());
        assert!(asked(hours, &format!("read 30 00, {hours}")).is_err());
        for (first, second) in [
            ("read 30 00, tick", "tick"),
            ("read 30 00, tick", "windows 3 7 8, tick"),
            ("read 30 00, tick", "sample 3 1 00000000, tick"),
            ("read 30 00, tick, tick", "tick, read 30 00, tick"),
            ("tick 2, tick", "tick 2, read 30 00, tick"),
        ] {
            let why = asked(first, second).expect_err(first);
            assert!(why.contains("not the same ticks"), "{first}: {why}");
        }
    }

    #[test]
    fn a_refused_image_and_what_stands_outside_lists_are_none() {
        assert!(ask(&[], 1, &[], &[]).is_err());
        assert!(asked("store 886", "store 886").is_err());
        let charge = "charge 00000000 00000001 1 100";
        assert!(asked(charge, charge).is_err());
        assert!(asked("outputs", "outputs").is_err());
    }
}
