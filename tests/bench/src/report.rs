//! The tables: all times, and the targets.

use crate::cases::{Case, Deferral, Kind, Order, Shape, LARGE, SIZES, SMALL};
use crate::timing::{Times, POSITIONS};
use crate::{engine, ROUNDS};

const MOST_RATIO: f64 = 12.0;
const MOST_GROWTH: f64 = 1.3;
const MOST_DEFERRED_WIDE: f64 = 1.5;
const MOST_DEFERRED_NARROW: f64 = 3.0;
const MOST_DEFERRED_GROWTH: f64 = 2.5;
const MOST_TO_BEFORE: f64 = 1.05;
const MOST_OFFER: f64 = 1.0;
const MOST_OFFER_AND_TAKING: f64 = 2.2;
/// Nanoseconds.
const MOST_ROUNDING: f64 = 1500.0;
const MOST_ROUNDING_TO_SCAN: f64 = 1.5;

/// Choices by a call that could round: of runs without rounding, and where they are measured with it.
#[derive(Default)]
pub struct RoundingTimes {
    pub without: Times,
    pub with: Times,
    /// A plain scan of the cells.
    pub scan: Times,
    pub opening: Times,
    pub opening_with: Times,
}

pub struct Measured<'a> {
    pub case: &'a Case,
    /// The choices alone.
    pub engine: Times,
    /// Each of them offered, and then made.
    pub offered: Times,
    /// Each of them offered, and what was offered taken.
    pub taken: Times,
    /// Choices by an older archive of the engine, where one was linked.
    pub before: Times,
    pub plain: Times,
    pub rounding: RoundingTimes,
}

impl<'a> Measured<'a> {
    pub fn new(case: &'a Case) -> Measured<'a> {
        let [engine, offered, taken, before, plain] = [(); 5].map(|()| Times::default());
        let rounding = RoundingTimes::default();
        Measured { case, engine, offered, taken, before, plain, rounding }
    }

    /// What an offer takes beside a choice.
    fn offer_ratio(&self) -> f64 {
        self.offered.ratio_to(&self.engine) - 1.0
    }

    /// What an offer and its taking take together, beside a choice.
    fn taking_ratio(&self) -> f64 {
        self.taken.ratio_to(&self.engine)
    }
}

pub fn print_times(measured: &[Measured]) {
    println!(
        "Whole runs, from the plan file to the checksum of all answers, on 16 pipes (serial and \
         parallel by turns, pipe 0 serial) and 32 lines, or on one pipe and one line. Times are \
         nanoseconds for one choice, the opening included. The engine is lent the same memory for \
         all runs, and only its opening clears it; the plain stepper allocates its own for each \
         run. {ROUNDS} rounds, in each the sides one after the other, each as often at each of {} \
         positions of the stack. Ratio: the median of the rounds' ratios. Noise: by how much the \
         slowest round is above the quickest.\n",
        POSITIONS.len()
    );
    let before = if engine::BEFORE.is_some() { " before, lowest | to before |" } else { "" };
    println!(
        "| deferral | pipes and lines | N | order | choices | engine, median | engine, lowest \
         | plain, median | plain, lowest | ratio | engine noise | plain noise |{before}"
    );
    let before = if engine::BEFORE.is_some() { "--:|--:|" } else { "" };
    println!("|---|---|--:|---|--:|--:|--:|--:|--:|--:|--:|--:|{before}");
    for Measured { case, engine, before, plain, .. } in measured {
        let Kind { deferral, shape, tokens, order } = case.kind;
        print!(
            "| {} | {} | {tokens} | {} | {} | {:.2} | {:.2} | {:.2} | {:.2} | {:.2} | {:.0} % | {:.0} % |",
            deferral.name(),
            shape.name(),
            order.name(),
            case.lists[0].len(),
            engine.median(),
            engine.lowest(),
            plain.median(),
            plain.lowest(),
            engine.ratio_to(plain),
            engine.noise(),
            plain.noise(),
        );
        if engine::BEFORE.is_some() {
            print!(" {:.2} | {:.2} |", before.lowest(), engine.ratio_to(before));
        }
        println!();
    }
}

pub fn print_offers(measured: &[Measured]) {
    println!(
        "\nThe same runs, each choice offered first: an offer is by how much a run with offers and \
         choices (of liboffered_run.a) is longer than one with choices alone (of libwhole_run.a); an \
         offer and its taking are a run in which what is offered is taken (of libtaken_run.a), and \
         nothing is called where the offer is a refusal. Lowest, of an offer: the difference of the two \
         lowest.\n"
    );
    println!(
        "| deferral | pipes and lines | N | order | choice, median | choice, lowest \
         | offer, median | offer, lowest | offer and taking, median | offer and taking, lowest \
         | offer / choice | offer and taking / choice |"
    );
    println!("|---|---|--:|---|--:|--:|--:|--:|--:|--:|--:|--:|");
    for m in measured {
        let Kind { deferral, shape, tokens, order } = m.case.kind;
        println!(
            "| {} | {} | {tokens} | {} | {:.2} | {:.2} | {:.2} | {:.2} | {:.2} | {:.2} | {:.2} | {:.2} |",
            deferral.name(),
            shape.name(),
            order.name(),
            m.engine.median(),
            m.engine.lowest(),
            m.offered.more_than(&m.engine),
            m.offered.lowest() - m.engine.lowest(),
            m.taken.median(),
            m.taken.lowest(),
            m.offer_ratio(),
            m.taking_ratio(),
        );
    }
}

pub fn print_roundings(measured: &[Measured]) {
    println!(
        "\nThe same runs, 16 pipes and 32 lines, by a call that could round (of librounded_run.a): without \
         rounding, beside a choice of libwhole_run.a, and with rounding at pipe 2 to base 5. More: by how \
         much a choice with rounding is longer than one of libwhole_run.a. Scan: a plain Rust scan of the \
         N cells, a loop without a way out. Opening: one with rounding beside one without, in \
         microseconds.\n"
    );
    println!(
        "| N | order | choice, lowest | could round, lowest | could round / choice | with rounding, median \
         | with rounding, lowest | more, median | more, lowest | scan, median | scan, lowest | more / scan \
         | opening, lowest | opening with rounding, lowest | ratio |"
    );
    println!("|--:|---|--:|--:|--:|--:|--:|--:|--:|--:|--:|--:|--:|--:|--:|");
    for m in measured.iter().filter(|m| m.case.rounds()) {
        let RoundingTimes { without, with, scan, opening, opening_with } = &m.rounding;
        println!(
            "| {} | {} | {:.2} | {:.2} | {:.2} | {:.2} | {:.2} | {:.2} | {:.2} | {:.2} | {:.2} | {:.2} | {:.2} | {:.2} | {:.2} |",
            m.case.kind.tokens,
            m.case.kind.order.name(),
            m.engine.lowest(),
            without.lowest(),
            without.ratio_to(&m.engine),
            with.median(),
            with.lowest(),
            with.more_than(&m.engine),
            with.lowest() - m.engine.lowest(),
            scan.median(),
            scan.lowest(),
            with.more_than_by(&m.engine, scan),
            opening.lowest() / 1000.0,
            opening_with.lowest() / 1000.0,
            opening_with.ratio_to(opening),
        );
    }
}

fn print_verdict(target: &str, kind: Kind, most: f64, found: f64) {
    let verdict = if found <= most { "met" } else { "not met" };
    let (shape, order) = (kind.shape.name(), kind.order.name());
    println!("| {target} | {shape} | {order} | {most} | {found:.2} | {verdict} |");
}

pub fn print_verdicts(measured: &[Measured]) {
    println!("\n| target | pipes and lines | order | at most | measured | verdict |");
    println!("|---|---|---|--:|--:|---|");
    let find =
        |kind: Kind| measured.iter().find(|m| m.case.kind == kind).expect("it is among the cases");
    for order in [Order::Random, Order::OneWorker] {
        let none = Kind { deferral: Deferral::None, shape: Shape::Wide, tokens: LARGE, order };
        print_wide(none, &find);
    }
    let order = Order::OneWorker;
    let none = Kind { deferral: Deferral::None, shape: Shape::Narrow, tokens: LARGE, order };
    print_narrow(none, &find);
    for order in [Order::Random, Order::OneWorker, Order::StopFirst, Order::PastEnd] {
        print_taking(Kind { shape: Shape::Wide, order, ..none }, measured);
    }
    print_taking(none, measured);
}

/// Over all cases of one shape and order.
fn print_taking(group: Kind, measured: &[Measured]) {
    let highest = |ratio: fn(&Measured) -> f64| {
        let of_group =
            |m: &&Measured| (m.case.kind.shape, m.case.kind.order) == (group.shape, group.order);
        measured.iter().filter(of_group).map(ratio).fold(0.0, f64::max)
    };
    print_verdict("an offer / a choice, highest", group, MOST_OFFER, highest(|m| m.offer_ratio()));
    print_verdict(
        "an offer and its taking / a choice, highest",
        group,
        MOST_OFFER_AND_TAKING,
        highest(|m| m.taking_ratio()),
    );
}

fn print_wide<'a>(none: Kind, find: &impl Fn(Kind) -> &'a Measured<'a>) {
    let highest = |ratio: fn(&Measured) -> f64| {
        SIZES.map(|tokens| ratio(find(Kind { tokens, ..none }))).into_iter().fold(0.0, f64::max)
    };
    let large = &find(none).engine;
    let small = &find(Kind { tokens: SMALL, ..none }).engine;
    print_verdict(
        "engine / plain without deferral, highest over N",
        none,
        MOST_RATIO,
        highest(|m| m.engine.ratio_to(&m.plain)),
    );
    print_verdict(
        "engine without deferral, N = 4096 / N = 256",
        none,
        MOST_GROWTH,
        large.ratio_to(small),
    );
    for deferral in [Deferral::EveryThird, Deferral::Long] {
        print_verdict(
            &format!("engine at N = 4096, {} / none", deferral.name()),
            none,
            MOST_DEFERRED_WIDE,
            find(Kind { deferral, ..none }).engine.ratio_to(large),
        );
    }
    let rounding = &find(none).rounding;
    print_verdict(
        "with rounding at N = 4096, nanoseconds more a choice",
        none,
        MOST_ROUNDING,
        rounding.with.more_than(large),
    );
    print_verdict(
        "the same / a plain scan of the cells",
        none,
        MOST_ROUNDING_TO_SCAN,
        rounding.with.more_than_by(large, &rounding.scan),
    );
    if engine::BEFORE.is_some() {
        print_verdict(
            "engine without deferral / before, highest over N",
            none,
            MOST_TO_BEFORE,
            highest(|m| m.engine.ratio_to(&m.before)),
        );
    }
}

fn print_narrow<'a>(none: Kind, find: &impl Fn(Kind) -> &'a Measured<'a>) {
    for deferral in [Deferral::Long, Deferral::Chain] {
        let name = deferral.name();
        for tokens in SIZES {
            let deferred = Kind { deferral, tokens, ..none };
            print_verdict(
                &format!("engine at N = {tokens}, {name} / none"),
                none,
                MOST_DEFERRED_NARROW,
                find(deferred).engine.ratio_to(&find(Kind { tokens, ..none }).engine),
            );
        }
        let large = Kind { deferral, ..none };
        let small = Kind { tokens: SMALL, ..large };
        print_verdict(
            &format!("engine with {name}, N = 4096 / N = 256"),
            none,
            MOST_DEFERRED_GROWTH,
            find(large).engine.ratio_to(&find(small).engine),
        );
    }
}
