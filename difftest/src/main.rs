//! `difftest [CASES] [SEED]`: the static library against the reference. Exit 1 on a mismatch, or
//! if a number that an operation can give never came, or a start, a fault of a frame, or an outcome of
//! nearest reading, of the clip check, of a quarter turn or of a tally.

use difftest::compare::Comparison;
use difftest::coverage::Coverage;
use difftest::exhaustive::{few_frames, largest_symbols, one_tone};
use difftest::first_monitored::{behind_any, every_coordinate};
use difftest::rows::{every_byte, every_length};
use difftest::run::random_cases;
use difftest::runs::every_run;
use difftest::tally::{largest_figures, long_run};
use difftest::under_test::Library;
use std::process::ExitCode;
use std::time::Instant;

const CASES: u64 = 200_000;
const SEED: u64 = 1;

fn main() -> ExitCode {
    let Some((cases, seed)) = arguments() else {
        eprintln!("usage: difftest [CASES] [SEED]");
        return ExitCode::from(2);
    };
    match run(cases, seed) {
        Ok(()) => ExitCode::SUCCESS,
        Err(told) => {
            println!("{told}");
            ExitCode::FAILURE
        }
    }
}

fn arguments() -> Option<(u64, u64)> {
    let numbers: Result<Vec<u64>, _> = std::env::args().skip(1).map(|word| word.parse()).collect();
    match numbers.ok()?.as_slice() {
        [] => Some((CASES, SEED)),
        [cases] => Some((*cases, SEED)),
        [cases, seed] => Some((*cases, *seed)),
        _ => None,
    }
}

fn run(cases: u64, seed: u64) -> Result<(), String> {
    let start = Instant::now();
    let mut comparison = Comparison {
        core: &Library,
        coverage: Coverage::default(),
    };
    let exhaustive = one_tone(&mut comparison, 15)
        .and_then(|()| few_frames(&mut comparison))
        .and_then(|()| largest_symbols(&mut comparison))
        .and_then(|()| every_run(&mut comparison))
        .and_then(|()| every_coordinate(&mut comparison))
        .and_then(|()| behind_any(&mut comparison))
        .and_then(|()| every_length(&mut comparison))
        .and_then(|()| every_byte(&mut comparison))
        .and_then(|()| largest_figures(&mut comparison));
    exhaustive.map_err(|told| format!("MISMATCH, exhaustive: {told}"))?;
    random_cases(&mut comparison, cases, seed)
        .map_err(|(case, told)| format!("MISMATCH, seed {seed} case {case}: {told}"))?;
    long_run(&mut comparison, seed)
        .map_err(|told| format!("MISMATCH, seed {seed}, a run of tallies: {told}"))?;
    println!("{}", comparison.coverage);
    let calls = comparison.coverage.total();
    let seconds = start.elapsed().as_secs_f64();
    println!("{cases} cases, seed {seed}: {calls} calls alike in {seconds:.1} s");
    comparison.coverage.verdict()
}
