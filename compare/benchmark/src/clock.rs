//! Measures the sides of a row in turns.

use std::hint::black_box;
use std::time::Duration;

use crate::processor_time::processor_time;
use crate::rows::{Row, Side};

/// Rounds of a row; in each every side has its turn. A row that takes long has fewer, but some it has.
const MOST_ROUNDS: usize = 15;
const LEAST_ROUNDS: usize = 3;
const LONG: Duration = Duration::from_secs(20);

/// A turn measures for so long at least, unless it takes much longer with what is not measured.
const TURN: Duration = Duration::from_millis(20);
const WHOLE_TURN: Duration = Duration::from_millis(100);

/// Measures parts of a pass; what comes before and after them is left out.
#[derive(Default)]
pub struct Clock {
    spent: Duration,
}

impl Clock {
    /// Does what is to be measured.
    pub fn time<T>(&mut self, work: impl FnOnce() -> T) -> T {
        let start = processor_time();
        let answer = black_box(work());
        self.spent += processor_time() - start;
        answer
    }

    pub fn spent(&self) -> Duration {
        self.spent
    }
}

/// The lowest, the middle and the highest of some numbers.
pub struct Spread {
    pub lowest: f64,
    pub middle: f64,
    pub highest: f64,
}

impl Spread {
    fn of(mut numbers: Vec<f64>) -> Self {
        numbers.sort_by(f64::total_cmp);
        Spread { lowest: numbers[0], middle: numbers[numbers.len() / 2], highest: numbers[numbers.len() - 1] }
    }
}

/// The seconds that one side of a row takes for a pass, round by round.
pub struct Times(Vec<f64>);

impl Times {
    /// The middle of the rounds.
    pub fn middle(&self) -> f64 {
        Spread::of(self.0.clone()).middle
    }

    /// How many times as long as the other side this one takes, over the rounds.
    pub fn ratio_to(&self, other: &Times) -> Spread {
        Spread::of(self.0.iter().zip(&other.0).map(|(ours, theirs)| ours / theirs).collect())
    }
}

/// What was measured of a row; a side that it doesn't have has no times.
pub struct Measured {
    pub rust: Option<Times>,
    pub exported: Option<Times>,
    pub inner: Option<Times>,
    pub rounds: usize,
}

/// Measures all sides of a row, in turns.
pub fn measure(row: &dyn Row) -> Measured {
    let (begun, mut rounds) = (processor_time(), Vec::new());
    while rounds.len() < LEAST_ROUNDS || (rounds.len() < MOST_ROUNDS && processor_time() - begun < LONG) {
        rounds.push([Side::Rust, Side::Exported, Side::Inner].map(|side| turn(row, side)));
    }
    let times = |side: usize| rounds.iter().map(|round| round[side]).collect::<Option<_>>().map(Times);
    Measured { rust: times(0), exported: times(1), inner: times(2), rounds: rounds.len() }
}

/// The middle of the passes of one turn, in seconds.
fn turn(row: &dyn Row, side: Side) -> Option<f64> {
    let (begun, mut measured, mut passes) = (processor_time(), Duration::ZERO, Vec::new());
    while passes.is_empty() || (measured < TURN && processor_time() - begun < WHOLE_TURN) {
        let pass = row.pass(side)?;
        measured += pass;
        passes.push(pass.as_secs_f64());
    }
    Some(Spread::of(passes).middle)
}
