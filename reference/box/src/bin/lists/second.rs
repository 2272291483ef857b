//! The second list, made from the first: the calls for strangers are others,
//! the rest stays, and the same ticks have a wire call since the tick before.

use crate::source::Source;
use reference_box::player::Call;

/// How the second list's calls for strangers come about.
#[derive(Clone, Copy)]
enum Way {
    /// The first list's, some left out, changed or added.
    Edited,
    /// The first list's in any order at any place, and new ones.
    Scattered,
    /// New ones alone.
    Fresh,
    /// As few as can be.
    Bare,
}

const WAYS: &[(u64, Way)] = &[
    (3, Way::Edited),
    (2, Way::Scattered),
    (3, Way::Fresh),
    (1, Way::Bare),
];

/// A list as the calls that are not for strangers, and the calls for
/// strangers before each of them and after the last.
struct Parted {
    rest: Vec<Call>,
    gaps: Vec<Vec<Call>>,
}

/// The second list to go with the first.
pub fn list(seed: u64, first: &[Call], strangers: &[u8]) -> Vec<Call> {
    if strangers.is_empty() {
        return first.to_vec();
    }
    let mut source = Source::new(seed, strangers);
    let first = Parted::of(first, strangers);
    let way = source.random().weighted(WAYS);
    let gaps = match way {
        Way::Edited => source.edited(&first.gaps),
        Way::Scattered => source.scattered(&first.gaps),
        Way::Fresh => source.fresh(first.gaps.len()),
        Way::Bare => vec![Vec::new(); first.gaps.len()],
    };
    let mut second = Parted {
        rest: first.rest.clone(),
        gaps,
    };
    second.mend(&first, &mut source);
    second.join()
}

pub fn is_for(call: &Call, channels: &[u8]) -> bool {
    let channel = call.channel();
    channels.iter().any(|&one| channel == Some(u16::from(one)))
}

impl Parted {
    fn of(list: &[Call], strangers: &[u8]) -> Parted {
        let mut parted = Parted {
            rest: Vec::new(),
            gaps: vec![Vec::new()],
        };
        for call in list {
            if is_for(call, strangers) {
                let last = parted.gaps.len() - 1;
                parted.gaps[last].push(call.clone());
            } else {
                parted.rest.push(call.clone());
                parted.gaps.push(Vec::new());
            }
        }
        parted
    }

    fn join(self) -> Vec<Call> {
        let mut rest = self.rest.into_iter();
        let mut list = Vec::new();
        for gap in self.gaps {
            list.extend(gap);
            list.extend(rest.next());
        }
        list
    }

    /// Whether a stranger's wire call stands in some of the gaps.
    fn has_wire(&self, from: usize, to: usize) -> bool {
        self.gaps[from..=to].iter().flatten().any(Call::is_wire)
    }

    /// "let the same ticks in both have a wire call since the tick before".
    /// Where a stretch between ticks has no wire call but strangers', it gets
    /// one or loses all, as the other list has it. All but the first tick of
    /// a line `tick N` have none in either list.
    fn mend(&mut self, other: &Parted, source: &mut Source) {
        let mut from = 0;
        for to in 0..self.rest.len() {
            if !matches!(self.rest[to], Call::Tick(_)) {
                continue;
            }
            if !self.rest[from..to].iter().any(Call::is_wire) {
                self.mend_stretch(from, to, other.has_wire(from, to), source);
            }
            from = to + 1;
        }
    }

    fn mend_stretch(&mut self, from: usize, to: usize, wire: bool, source: &mut Source) {
        if !wire {
            for gap in &mut self.gaps[from..=to] {
                gap.retain(|call| !call.is_wire());
            }
        } else if !self.has_wire(from, to) {
            let place = source.random().within(from as u64, to as u64);
            let call = source.next_wire();
            self.gaps[place as usize].push(call);
        }
    }
}
