//! How long the proved engine takes for a choice, beside a plain stepper of the same rules, for an offer
//! and its taking, and for a choice with rounding.
//!
//! `--check` compares the answers of all of them and measures nothing. Answers that differ are a
//! failure; a target that is not met is only printed, as times depend on the machine.

mod cases;
mod check;
mod engine;
mod plain;
mod plans;
mod report;
mod rounding;
mod timing;

use std::env;
use std::hint::black_box;
use std::process::ExitCode;

use engine::WholeRun;
use report::{Measured, RoundingTimes};
use timing::time;

const ROUNDS: usize = 21;

/// Each round goes through all cases, so that a slow spell of the machine falls on all of them.
fn measure<'a>(cases: &'a [cases::Case], mem: &mut [u16]) -> Vec<Measured<'a>> {
    let mut measured: Vec<Measured> = cases.iter().map(Measured::new).collect();
    for _ in 0..ROUNDS {
        for Measured { case, engine, offered, taken, before, plain, rounding } in &mut measured {
            let mut by = |whole_run: WholeRun, times| {
                time(case, times, |file, workers, choices| whole_run(file, workers, choices, mem));
            };
            by(engine::run, engine);
            by(engine::run_offered, offered);
            by(engine::run_taken, taken);
            if let Some(run_before) = engine::BEFORE {
                by(run_before, before);
            }
            by(engine::run_unrounded, &mut rounding.without);
            time(case, plain, plain::run);
            if case.rounds() {
                measure_rounding(case, rounding, mem);
            }
        }
    }
    measured
}

/// Whole runs with rounding; for each of their choices a plain scan of the same cells; and openings alone.
fn measure_rounding(case: &cases::Case, times: &mut RoundingTimes, mem: &mut [u16]) {
    let mut lent = case.lent();
    time(case, &mut times.with, |file, workers, choices| {
        engine::run_rounded(file, workers, &mut lent, choices, mem)
    });
    time(case, &mut times.scan, |_, _, choices| {
        choices.iter().for_each(|_| {
            black_box(rounding::scan(black_box(&lent.cells)));
        });
        0
    });
    let openings = case.openings();
    time(&openings, &mut times.opening, |file, workers, _| engine::run(file, workers, &[], mem));
    time(&openings, &mut times.opening_with, |file, workers, _| {
        engine::run_rounded(file, workers, &mut lent, &[], mem)
    });
}

fn main() -> ExitCode {
    let words: Vec<String> = env::args().skip(1).collect();
    let check_only = words == ["--check"];
    if !words.is_empty() && !check_only {
        eprintln!("usage: bench [--check]");
        return ExitCode::from(2);
    }
    match run(check_only) {
        Ok(()) => ExitCode::SUCCESS,
        Err(why) => {
            eprintln!("bench: {why}");
            ExitCode::FAILURE
        }
    }
}

fn run(check_only: bool) -> Result<(), String> {
    let mut mem = vec![0; engine::LENT];
    let cases = cases::all();
    for case in &cases {
        case.check(&mut mem)?;
    }
    if check_only {
        println!("{} measured cases: all checksums agree", cases.len());
        return check::all(&mut mem);
    }
    let measured = measure(&cases, &mut mem);
    report::print_times(&measured);
    report::print_offers(&measured);
    report::print_roundings(&measured);
    report::print_verdicts(&measured);
    Ok(())
}
