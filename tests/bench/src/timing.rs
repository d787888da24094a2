//! Times of whole runs.

use std::hint::black_box;
use std::time::{Duration, Instant};

use crate::cases::Case;
use crate::plain::Choice;

/// Short runs are repeated until a timed part lasts about this long.
const TIMED_PART: Duration = Duration::from_millis(6);

/// One side's times for a choice, in nanoseconds: one of each round.
#[derive(Default)]
pub struct Times(Vec<f64>);

fn median(numbers: impl Iterator<Item = f64>) -> f64 {
    let mut sorted: Vec<f64> = numbers.collect();
    sorted.sort_by(f64::total_cmp);
    sorted[sorted.len() / 2]
}

impl Times {
    pub fn median(&self) -> f64 {
        median(self.0.iter().copied())
    }

    /// The median of the rounds' ratios. The two times of a round lie close together, so a slow spell
    /// of the machine mostly falls on both.
    pub fn ratio_to(&self, other: &Times) -> f64 {
        median(self.0.iter().zip(&other.0).map(|(mine, its)| mine / its))
    }

    /// The median of the rounds' differences as ratios to a third.
    pub fn more_than_by(&self, other: &Times, unit: &Times) -> f64 {
        let rounds = self.0.iter().zip(&other.0).zip(&unit.0);
        median(rounds.map(|((mine, its), one)| (mine - its) / one))
    }

    /// The median of the rounds' differences.
    pub fn more_than(&self, other: &Times) -> f64 {
        median(self.0.iter().zip(&other.0).map(|(mine, its)| mine - its))
    }

    pub fn lowest(&self) -> f64 {
        self.0.iter().copied().fold(f64::INFINITY, f64::min)
    }

    /// By how many percent the slowest round is above the quickest.
    pub fn noise(&self) -> f64 {
        let highest = self.0.iter().copied().fold(0.0, f64::max);
        (highest / self.lowest() - 1.0) * 100.0
    }
}

/// A choice takes up to a quarter longer where the copies of its state lie across the processor's
/// cache lines, which depends on where the stack stands. So a timed part goes through several
/// positions of the stack, half of them at a multiple of 32 bytes and half between two.
type Position = fn(&mut dyn FnMut() -> Duration) -> Duration;
pub const POSITIONS: [Position; 8] =
    [at::<0>, at::<528>, at::<1056>, at::<1584>, at::<2112>, at::<2640>, at::<3168>, at::<3696>];

#[inline(never)]
fn at<const BYTES: usize>(run: &mut dyn FnMut() -> Duration) -> Duration {
    let mut room = [0u8; BYTES];
    black_box(&mut room);
    let spent = run();
    black_box(&mut room);
    spent
}

/// Makes a whole run of each list once untimed, then as often as fills the timed part, as often at each
/// position.
pub fn time(
    case: &Case,
    times: &mut Times,
    mut whole_run: impl FnMut(&[u8], u16, &[Choice]) -> u64,
) {
    let mut all_lists = || {
        let start = Instant::now();
        for choices in &case.lists {
            black_box(whole_run(
                black_box(&case.file),
                black_box(case.workers),
                black_box(choices),
            ));
        }
        start.elapsed()
    };
    let warm_up = all_lists();
    let turn = warm_up.as_nanos().max(1) * POSITIONS.len() as u128;
    let turns = (TIMED_PART.as_nanos() / turn).max(1) as u32;
    let mut spent = Duration::ZERO;
    for _ in 0..turns {
        spent += POSITIONS.iter().map(|position| position(&mut all_lists)).sum::<Duration>();
    }
    let repeats = turns * POSITIONS.len() as u32;
    times.0.push(spent.as_nanos() as f64 / f64::from(repeats) / case.choices() as f64);
}
