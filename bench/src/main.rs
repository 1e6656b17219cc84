//! `bench [--quick]`: time per symbol, the static library beside the peer in the same run.
//! `bench noise [--quick] FILE`: how often frames are read wrong against noise, as text and as a picture.

use bench::noise::{self, Curve, WAYS};
use bench::report::{print_clips, print_counting, print_scaling, print_starts, print_symbols};
use bench::timing::Effort;
use std::process::ExitCode;
use std::time::Duration;

const FULL: Effort = Effort {
    rounds: 201,
    turn: Duration::from_millis(1),
};
const QUICK: Effort = Effort {
    rounds: 21,
    turn: Duration::from_millis(1),
};
const MANY: noise::Effort = noise::Effort {
    wrong: 400,
    frames: 1_000_000,
};
const FEW: noise::Effort = noise::Effort {
    wrong: 100,
    frames: 10_000,
};

fn main() -> ExitCode {
    let words: Vec<String> = std::env::args().skip(1).collect();
    let words: Vec<&str> = words.iter().map(String::as_str).collect();
    match words.as_slice() {
        [] => print_times(FULL),
        ["--quick"] => print_times(QUICK),
        ["noise", "--quick", file] => return draw_noise(FEW, file),
        ["noise", file] if !file.starts_with('-') => return draw_noise(MANY, file),
        _ => {
            eprintln!("usage: bench [--quick]\n       bench noise [--quick] FILE");
            return ExitCode::from(2);
        }
    }
    ExitCode::SUCCESS
}

fn print_times(effort: Effort) {
    println!(
        "medians of {} rounds, sides in turn; tones shuffled, 8 frames or 64, buffers not cleared",
        effort.rounds
    );
    print_symbols(effort);
    println!();
    print_starts(effort);
    println!();
    print_scaling(effort);
    println!();
    print_counting(effort);
    println!();
    print_clips(effort);
}

fn draw_noise(effort: noise::Effort, file: &str) -> ExitCode {
    let curves = WAYS.map(|way| Curve::measure(way, effort));
    noise::print(&curves);
    match std::fs::write(file, noise::draw(&curves)) {
        Ok(()) => ExitCode::SUCCESS,
        Err(error) => {
            eprintln!("{file}: {error}");
            ExitCode::FAILURE
        }
    }
}
