//! The plans that are measured, each with its lists of choices.

use crate::plain::{self, Choice};
use crate::rounding::Lent;
use crate::{check, plans};

/// One token fewer than lines.
pub const ONE_ROUND: u16 = 31;
pub const SMALL: u16 = 256;
pub const MIDDLE: u16 = 1024;
pub const LARGE: u16 = 4096;
/// How many times as many choices are made past the end as before it.
const PAST_END: usize = 7;
pub const SIZES: [u16; 3] = [SMALL, MIDDLE, LARGE];

#[derive(Clone, Copy, PartialEq)]
pub enum Deferral {
    None,
    EveryThird,
    Long,
    Chain,
    OldestFirst,
    HighestFirst,
}

/// How many pipes and lines.
#[derive(Clone, Copy, PartialEq)]
pub enum Shape {
    Wide,
    Narrow,
}

#[derive(Clone, Copy, PartialEq)]
pub enum Order {
    Random,
    OneWorker,
    StopFirst,
    PastEnd,
}

/// What is measured, and the order of its choices.
#[derive(Clone, Copy, PartialEq)]
pub struct Kind {
    pub deferral: Deferral,
    pub shape: Shape,
    pub tokens: u16,
    pub order: Order,
}

pub struct Case {
    pub kind: Kind,
    pub file: Vec<u8>,
    pub workers: u16,
    pub lists: Vec<Vec<Choice>>,
}

impl Deferral {
    pub fn name(self) -> &'static str {
        match self {
            Deferral::None => "none",
            Deferral::EveryThird => "every third token",
            Deferral::Long => "half, for long",
            Deferral::Chain => "chain backwards",
            Deferral::OldestFirst => "oldest first",
            Deferral::HighestFirst => "highest first",
        }
    }
}

impl Shape {
    pub fn name(self) -> &'static str {
        match self {
            Shape::Wide => "16 and 32",
            Shape::Narrow => "1 and 1",
        }
    }
}

impl Order {
    pub fn name(self) -> &'static str {
        match self {
            Order::Random => "random, 32 workers",
            Order::OneWorker => "one worker",
            Order::StopFirst => "stop first",
            Order::PastEnd => "stop first, past the end",
        }
    }
}

impl Kind {
    fn plan(self) -> plans::Plan {
        let plan = match self.deferral {
            Deferral::None => plans::undeferred(self.tokens),
            Deferral::EveryThird => plans::every_third(self.tokens),
            Deferral::Long => plans::long_deferred(self.tokens),
            Deferral::Chain => plans::chain(self.tokens),
            Deferral::OldestFirst => plans::oldest_first(self.tokens),
            Deferral::HighestFirst => plans::highest_first(self.tokens),
        };
        match self.shape {
            Shape::Wide => plan,
            Shape::Narrow => plans::narrow(plan),
        }
    }

    fn case(self) -> Case {
        let plan = self.plan();
        let file = plan.file();
        let (workers, lists) = match self.order {
            // A processor learns to predict a short list that comes again and again. So small plans
            // get several, for as many different choices as the large ones.
            Order::Random => {
                let seeds = 1..=u32::from(LARGE / self.tokens);
                (32, seeds.map(|seed| plans::random_order(&file, 32, seed)).collect())
            }
            Order::OneWorker => (1, vec![plans::one_worker_order(&file)]),
            Order::StopFirst => (1, vec![plans::stop_first_order(&plan)]),
            // Then each line in turn, again and again: all of these choices are refused.
            Order::PastEnd => {
                let mut choices = plans::stop_first_order(&plan);
                let refused = (0..plan.lines as u8).map(|line| [0, line]).cycle();
                choices.extend(refused.take(PAST_END * choices.len()));
                (1, vec![choices])
            }
        };
        // All tokens are ordered, no choice is refused before the end, and every one after it.
        let whole = 2 * usize::from(self.tokens) * plan.pipes.len() + 1;
        for choices in &lists {
            let mut run = plain::Run::open(&file, workers);
            for (made, &choice) in choices.iter().enumerate() {
                assert_eq!(run.ended(), made >= whole);
                assert_eq!(matches!(run.choose(choice), plain::Answer::Refused(_)), made >= whole);
            }
            assert!(run.ended());
        }
        Case { kind: self, file, workers, lists }
    }
}

impl Case {
    /// Runs with rounding are measured without deferral, as it makes no difference to them.
    pub fn rounds(&self) -> bool {
        self.kind.deferral == Deferral::None
            && self.kind.shape == Shape::Wide
            && self.kind.tokens > ONE_ROUND
    }

    /// The same plan with lists of one choice each, where an opening alone is timed.
    pub fn openings(&self) -> Case {
        let lists = vec![vec![[0, 0]]; 32];
        Case { kind: self.kind, file: self.file.clone(), workers: self.workers, lists }
    }

    /// For a run with rounding at pipe 2, which is serial, to base 5.
    pub fn lent(&self) -> Lent {
        Lent::new(2, 5, self.kind.tokens)
    }

    pub fn choices(&self) -> usize {
        self.lists.iter().map(Vec::len).sum()
    }

    pub fn check(&self, mem: &mut [u16]) -> Result<(), String> {
        let Kind { deferral, shape, tokens, order } = self.kind;
        let (deferral, shape, order) = (deferral.name(), shape.name(), order.name());
        for choices in &self.lists {
            let same = check::same(&self.file, self.workers, choices, mem);
            same.and_then(|()| check::same_as_before(&self.file, self.workers, choices, mem))
                .and_then(|()| match self.rounds() {
                    true => {
                        let lent = &mut self.lent();
                        check::same_rounded(&self.file, self.workers, choices, lent, mem)
                    }
                    false => Ok(()),
                })
                .map_err(|why| {
                    format!("deferral: {deferral}, pipes and lines: {shape}, N = {tokens}, order: {order}: {why}")
                })?;
        }
        Ok(())
    }
}

pub fn all() -> Vec<Case> {
    let mut kinds = Vec::new();
    for order in [Order::Random, Order::OneWorker] {
        let mut wide = |deferral, tokens| {
            kinds.push(Kind { deferral, shape: Shape::Wide, tokens, order });
        };
        SIZES.into_iter().for_each(|tokens| wide(Deferral::None, tokens));
        wide(Deferral::EveryThird, LARGE);
        wide(Deferral::Long, LARGE);
    }
    for order in [Order::StopFirst, Order::PastEnd] {
        let (deferral, shape, tokens) = (Deferral::None, Shape::Wide, ONE_ROUND);
        kinds.push(Kind { deferral, shape, tokens, order });
    }
    // With one line there is one order, but for refused choices.
    let mut narrow = |deferral, tokens| {
        kinds.push(Kind { deferral, shape: Shape::Narrow, tokens, order: Order::OneWorker });
    };
    for deferral in [Deferral::None, Deferral::Long, Deferral::Chain] {
        SIZES.into_iter().for_each(|tokens| narrow(deferral, tokens));
    }
    narrow(Deferral::OldestFirst, LARGE);
    narrow(Deferral::HighestFirst, MIDDLE);
    kinds.into_iter().map(Kind::case).collect()
}
