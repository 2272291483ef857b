//! Random calls on a device and on the model, compared after each.

use reference_box::generator::kinds::{self, Kind, KINDS};
use reference_box::player::{play, Call, Device, Reply};
use reference_box::ChannelBox;
use std::fmt;

/// The first call on which the device and the model differ.
#[derive(Debug)]
pub struct Difference {
    seed: u64,
    kind: &'static str,
    /// Counted from 1 within the script of the kind.
    number: usize,
    call: Call,
    model: Shown,
    device: Shown,
    /// The script up to this call. No shorter prefix shows the difference, since
    /// everything before was the same.
    script: String,
}

impl Difference {
    /// A script that shows the difference: where the answer is the same, a look
    /// at the outputs follows.
    pub fn script(&self) -> String {
        let look = if self.model.reply == self.device.reply { "outputs\n" } else { "" };
        format!("{}{look}", self.script)
    }
}

/// What is compared after a call: number, length, two bits, whole buffer, the
/// bits of a Real and the cents, and the outputs.
#[derive(Debug, PartialEq, Eq)]
struct Shown {
    reply: Reply,
    outputs: u32,
}

impl Shown {
    fn after(call: &Call, device: &mut impl Device) -> Shown {
        let reply = call.make(device);
        Shown {
            reply,
            outputs: outputs(device),
        }
    }
}

/// Output of channel k at bit k. The numbers 0 and 17 are no digital channel's.
fn outputs(device: &impl Device) -> u32 {
    (0..=17).fold(0, |word, channel| {
        word | u32::from(device.output(channel)) << channel
    })
}

/// Plays scripts of every kind, of about so many calls together, and gives how
/// many they were.
pub fn compare<D: Device + Default>(seed: u64, calls: usize) -> Result<usize, Box<Difference>> {
    let each = calls / KINDS.len() + 1;
    let mut played = 0;
    for &(name, kind) in KINDS {
        played += compare_kind::<D>(seed, each, name, kind)?;
    }
    Ok(played)
}

fn compare_kind<D: Device + Default>(
    seed: u64,
    calls: usize,
    name: &'static str,
    kind: Kind,
) -> Result<usize, Box<Difference>> {
    let script = kinds::calls(seed, calls, kind);
    // a look at the outputs is no call
    let played = script.iter().filter(|call| !matches!(call, Call::Outputs)).count();
    let (mut model, mut device) = (ChannelBox::default(), D::default());
    for (index, call) in script.iter().enumerate() {
        let expected = Shown::after(call, &mut model);
        let found = Shown::after(call, &mut device);
        if found != expected {
            return Err(Box::new(Difference {
                seed,
                kind: name,
                number: index + 1,
                call: call.clone(),
                model: expected,
                device: found,
                script: lines(&script[..=index]),
            }));
        }
    }
    Ok(played)
}

fn lines(calls: &[Call]) -> String {
    calls.iter().map(|call| format!("{call}\n")).collect()
}

/// The first answer to a script that differs, with that of the model, as its
/// number from 1; or how many answers there are.
pub fn compare_script<D: Device + Default>(script: &[u8]) -> Result<usize, String> {
    let (model, device) = (played::<ChannelBox>(script), played::<D>(script));
    let answers = model.lines().zip(device.lines()).enumerate();
    for (index, (expected, found)) in answers {
        if expected != found {
            let (number, expected) = (index + 1, cut(expected.to_string()));
            let found = cut(found.to_string());
            return Err(format!(
                "answer {number} differs:\n  model   {expected}\n  library {found}"
            ));
        }
    }
    Ok(model.lines().count())
}

fn played<D: Device + Default>(script: &[u8]) -> String {
    let mut output = Vec::new();
    play(&mut D::default(), script, &mut output).expect("nothing fails in memory");
    String::from_utf8(output).expect("answers are plain characters")
}

/// A line is cut where an image or a long buffer would hide the rest.
fn cut(line: String) -> String {
    line.chars().take(200).collect()
}

impl fmt::Display for Difference {
    fn fmt(&self, formatter: &mut fmt::Formatter) -> fmt::Result {
        let (seed, kind, number) = (self.seed, self.kind, self.number);
        writeln!(
            formatter,
            "seed {seed}, kind {kind}, call {number} differs:"
        )?;
        writeln!(formatter, "  call    {}", cut(self.call.to_string()))?;
        writeln!(formatter, "  model   {}", self.model)?;
        write!(formatter, "  library {}", self.device)
    }
}

impl fmt::Display for Shown {
    fn fmt(&self, formatter: &mut fmt::Formatter) -> fmt::Result {
        let line = cut(self.reply.to_string());
        write!(formatter, "{line} (outputs {:05x})", self.outputs)
    }
}

#[cfg(test)]
mod tests {
    use super::*;
    use crate::Library;
    use reference_box::reals::Real;
    use reference_box::Answer;

    #[test]
    fn the_library_answers_as_the_model() {
        let played = compare::<Library>(1, 20_000).unwrap_or_else(|found| panic!("{found}"));
        assert!(played.abs_diff(20_000) < 600, "{played}");
    }

    /// The model with a fault: the byte past a Counter is touched.
    #[derive(Default)]
    struct Faulty(ChannelBox);

    impl Device for Faulty {
        fn power_up(&mut self, image: &[u8]) -> u8 {
            self.0.power_up(image)
        }
        fn store(&self, buffer: &mut [u8]) -> (u8, usize) {
            self.0.store(buffer)
        }
        fn read(&mut self, swno: u16, buffer: &mut [u8]) -> Answer {
            let answer = self.0.read(swno, buffer);
            if let (2, 4, Some(past)) = (swno & 0xF, answer.length, buffer.get_mut(4)) {
                *past ^= 1;
            }
            answer
        }
        fn write(&mut self, swno: u16, bytes: &[u8]) -> Answer {
            self.0.write(swno, bytes)
        }
        fn sample(&mut self, channel: u8, level: bool, amperes: Real) -> u8 {
            self.0.sample(channel, level, amperes)
        }
        fn tick(&mut self) {
            self.0.tick();
        }
        fn lookup(&self, table: u8, x: Real) -> (u8, Real) {
            self.0.lookup(table, x)
        }
        fn charge(
            &self,
            earlier: i32,
            later: i32,
            litres: u32,
            limits: &[u64],
            prices: &[u32],
        ) -> (u8, u64) {
            self.0.charge(earlier, later, litres, limits, prices)
        }
        fn minute(&mut self, minute: u16) -> u8 {
            self.0.minute(minute)
        }
        fn windows(&mut self, channel: u8, windows: &[(u16, u16)]) -> u8 {
            self.0.windows(channel, windows)
        }
        fn output(&self, channel: u8) -> bool {
            self.0.output(channel)
        }
    }

    #[test]
    fn a_difference_names_seed_kind_and_call() {
        let found = compare::<Faulty>(5, 5000).expect_err("the fault is found");
        let kind = Kind::named(found.kind).expect("a kind's name");
        let script = kinds::calls(5, 5000 / KINDS.len() + 1, kind);
        assert_eq!(script[found.number - 1], found.call);
        let (text, name) = (found.to_string(), found.kind);
        let head = format!("seed 5, kind {name}, call {} differs:\n", found.number);
        assert!(text.starts_with(&head), "{text}");
        assert!(text.contains("  call    read "), "{text}");
    }

    #[test]
    fn a_kept_script_is_the_shortest_prefix_that_shows_the_difference() {
        let found = compare::<Faulty>(5, 5000).expect_err("the fault is found");
        let script = found.script();
        assert_eq!(script.lines().count(), found.number);
        let whole = compare_script::<Faulty>(script.as_bytes());
        let text = whole.expect_err("the kept script shows it");
        assert!(text.starts_with(&format!("answer {} differs:", found.number)), "{text}");
        let last = script.trim_end().rfind('\n').map_or(0, |feed| feed + 1);
        assert!(compare_script::<Faulty>(script[..last].as_bytes()).is_ok());
        assert!(compare_script::<Library>(script.as_bytes()).is_ok());
    }
}
