//! Times. Other programs on the machine only ever add to a time, so of several
//! rounds the least is taken; the sides take turns, so that both meet the same
//! machine.

use crate::cases::{prepared, repeat, Start, Work, CASES};
use crate::day::{play, Call};
use crate::sides::{Library, Model, Side};
use std::hint::black_box;
use std::time::{Duration, Instant};

/// How much is measured.
#[derive(Clone, Copy)]
pub struct Effort {
    /// How long a round of single calls takes, about.
    pub round: Duration,
    pub rounds: u32,
    /// Calls of a mixed day, and rounds of it.
    pub day: usize,
    pub day_rounds: u32,
    /// Days that a box has behind it when its calls are timed again.
    pub days: usize,
    /// Whether instructions are counted, which takes a while.
    pub counted: bool,
}

/// ns, or instructions, a call on each side.
pub struct Pair {
    pub library: f64,
    pub model: f64,
}

fn time(work: impl FnOnce()) -> Duration {
    let start = Instant::now();
    work();
    start.elapsed()
}

/// As many calls as fill a round. They are tried on a copy, so that both sides
/// make the same calls from the same start.
fn calls_of_a_round<S: Side>(side: &S, work: Work, round: Duration) -> u32 {
    const TRIAL: u32 = 1000;
    let mut copy = side.clone();
    let trial = time(|| repeat(black_box(&mut copy), work, TRIAL));
    let times = round.as_secs_f64() / trial.as_secs_f64().max(1e-9);
    (times * f64::from(TRIAL)) as u32 + 1
}

/// A case of the table, the same number of calls on both sides.
struct Single {
    work: Work,
    times: u32,
    library: Library,
    model: Model,
    least: [Duration; 2],
}

impl Single {
    fn new(start: Start, work: Work, round: Duration) -> Single {
        let library = prepared(start);
        Single {
            work,
            times: calls_of_a_round(&library, work, round),
            library,
            model: prepared(start),
            least: [Duration::MAX; 2],
        }
    }

    fn round(&mut self) {
        let (work, times) = (self.work, self.times);
        let taken = [
            time(|| repeat(black_box(&mut self.library), work, times)),
            time(|| repeat(black_box(&mut self.model), work, times)),
        ];
        self.least = [0, 1].map(|side| self.least[side].min(taken[side]));
    }

    fn per_call(&self) -> Pair {
        let ns = |least: Duration| least.as_nanos() as f64 / f64::from(self.times);
        let [library, model] = self.least.map(ns);
        Pair { library, model }
    }
}

/// Every case of the table. A round goes through all of them, so that each is
/// timed at as many different moments as there are rounds.
pub fn singles(effort: Effort) -> Vec<Pair> {
    let case = |&(_, start, work): &_| Single::new(start, work, effort.round);
    let mut cases: Vec<Single> = CASES.iter().map(case).collect();
    for _ in 0..effort.rounds {
        cases.iter_mut().for_each(Single::round);
    }
    cases.iter().map(Single::per_call).collect()
}

/// A long list is timed in pieces of so many calls, each its least over the
/// rounds: a round of the whole list is never free of other programs.
const PIECE: usize = 5000;

#[derive(Default)]
struct Pieces(Vec<Duration>);

impl Pieces {
    /// One more round, on a copy of a box. Gives the box afterwards.
    fn round<S: Side>(&mut self, start: &S, day: &[Call]) -> S {
        let mut side = start.clone();
        for (index, piece) in day.chunks(PIECE).enumerate() {
            let taken = time(|| play(black_box(&mut side), piece));
            match self.0.get_mut(index) {
                Some(least) => *least = taken.min(*least),
                None => self.0.push(taken),
            }
        }
        side
    }

    fn per_call(&self, day: &[Call]) -> f64 {
        let total: Duration = self.0.iter().sum();
        total.as_nanos() as f64 / day.len() as f64
    }
}

/// The mixed day on both sides, which must come to the same kept values.
pub fn mixed(day: &[Call], effort: Effort) -> Pair {
    let (library, model) = (
        prepared::<Library>(Start::Busy),
        prepared::<Model>(Start::Busy),
    );
    let (mut of_library, mut of_model) = (Pieces::default(), Pieces::default());
    for _ in 0..effort.day_rounds {
        let end = of_library.round(&library, day);
        let same = of_model.round(&model, day);
        assert_eq!(end.image(), same.image(), "the sides did not do the same");
    }
    Pair {
        library: of_library.per_call(day),
        model: of_model.per_call(day),
    }
}

/// ns a call of a mixed day on the library's box.
pub struct Ageing {
    pub new: f64,
    pub old: f64,
}

/// The same day on one box at its start and after many days. Copies of the box
/// as it was and as it is take turns, so that both are timed on the same machine.
pub fn ageing(day: &[Call], effort: Effort) -> Ageing {
    let new = prepared::<Library>(Start::Busy);
    let mut old = new.clone();
    for _ in 0..effort.days {
        play(&mut old, day);
    }
    let (mut of_new, mut of_old) = (Pieces::default(), Pieces::default());
    for _ in 0..effort.day_rounds {
        of_new.round(&new, day);
        of_old.round(&old, day);
    }
    Ageing {
        new: of_new.per_call(day),
        old: of_old.per_call(day),
    }
}
