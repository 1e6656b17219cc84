//! The five tables that a run prints.

use crate::clips::{Check, ClipCheck, CLIP_LOADS};
use crate::counting::{CountRead, Counting, Wrong};
use crate::load::{Load, LOADS, MIXED, UNCODED};
use crate::peer;
use crate::symbols::STARTS;
use crate::timing::{measure, Effort, Measured, Ratio};
use crate::workload::{Encode, Read, ReadNearest, Workload};

/// Seconds from one symbol to the next.
const SYMBOL_TIME: f64 = 250e-6;

/// How much longer than from start 0 a symbol may take from another.
const MOST_SLOWER: f64 = 1.05;

/// Both sides of a measurement, in this order.
const LIBRARY: usize = 0;
const PEER: usize = 1;

/// Encoding, reading and nearest reading of every load at 4,096 tones, and whether the library's nearest
/// reading is always done within the symbol time.
pub fn print_symbols(effort: Effort) {
    println!("time of a symbol of 4096 tones, and its share of the symbol time of 250 us");
    println!(
        "{:<34}{:>9}{:>8}{:>12}{:>8}{:>14}{:>15}",
        "", "library", "", "peer", "", "library/peer", "middle half"
    );
    let mut slowest: f64 = 0.0;
    for load in LOADS {
        let measured = measure_load(effort, load, 4096);
        print_symbol("encode", load, &measured.encode);
        print_symbol("read", load, &measured.read);
        print_symbol("nearest", load, &measured.nearest);
        slowest = slowest.max(measured.nearest.median(LIBRARY));
    }
    let within = if slowest <= SYMBOL_TIME { "" } else { "NOT " };
    println!(
        "nearest reading by the library takes {:.1} us at most: {within}within the symbol time",
        1e6 * slowest
    );
}

fn print_symbol(operation: &str, load: Load, measured: &Measured<2>) {
    let share = |seconds: f64| 100.0 * seconds / SYMBOL_TIME;
    let (library, peer) = (measured.median(LIBRARY), measured.median(PEER));
    let ratio = measured.ratio(LIBRARY, PEER);
    println!(
        "{:<34}{:>6.1} us{:>6.1} %{:>9.1} us{:>6.1} %{:>14.2}{:>15}",
        format!("{operation}, {}", load.name),
        1e6 * library,
        share(library),
        1e6 * peer,
        share(peer),
        ratio.median,
        middle_half(&ratio),
    );
}

fn middle_half(ratio: &Ratio) -> String {
    format!("{:.2} to {:.2}", ratio.middle_half.0, ratio.middle_half.1)
}

/// Encoding and reading by the library with frames from every start, coded and uncoded, and whether
/// the slowest start is near start 0.
pub fn print_starts(effort: Effort) {
    println!("time of a symbol of 4096 tones by the frame's start, library, as a ratio to start 0");
    print!("{:<33}{:>9}", "", "start 0");
    STARTS[1..].iter().for_each(|start| print!("{start:>6}"));
    println!("{:>9}{:>15}", "slowest", "middle half");
    let mut slowest: f64 = 0.0;
    for load in [MIXED, UNCODED] {
        let (encode, read) = measure_starts(effort, load, 4096);
        slowest = slowest.max(print_start("encode", load, &encode));
        slowest = slowest.max(print_start("read", load, &read));
    }
    let within = if slowest <= MOST_SLOWER { "" } else { "NOT " };
    println!("the slowest start takes {slowest:.3} of start 0: {within}within {MOST_SLOWER:.2}");
}

/// Prints a row and tells the ratio of its slowest start.
fn print_start(operation: &str, load: Load, measured: &ByStart) -> f64 {
    let name = format!("{operation}, {}", load.name);
    print!("{name:<33}{:>6.1} us", 1e6 * measured.median(0));
    let ratios = (1..STARTS.len()).map(|start| measured.ratio(start, 0));
    let ratios: Vec<Ratio> = ratios.collect();
    ratios
        .iter()
        .for_each(|ratio| print!("{:>6.2}", ratio.median));
    let by_median = |one: &&Ratio, other: &&Ratio| one.median.total_cmp(&other.median);
    let slowest = ratios.iter().max_by(by_median).expect("seven starts");
    println!("{:>9.3}{:>15}", slowest.median, middle_half(slowest));
    slowest.median
}

/// The cost of a tone against NSC, which is level where the cost is linear.
pub fn print_scaling(effort: Effort) {
    println!("time of a tone against NSC, {}", MIXED.name);
    println!("{:>6}{:>20}{:>22}{:>22}", "", "encode", "read", "nearest");
    print!("{:>6}", "NSC");
    (0..3).for_each(|_| print!("{:>12}{:>10}", "library", "peer"));
    println!();
    for nsc in [16, 64, 256, 512, 1024, 2048, 4096] {
        let PerCall {
            encode,
            read,
            nearest,
        } = measure_load(effort, MIXED, nsc);
        let per_tone = |seconds: f64| format!("{:.1} ns", 1e9 * seconds / nsc as f64);
        print!("{nsc:>6}");
        for call in [encode, read, nearest] {
            let (library, peer) = (call.median(LIBRARY), call.median(PEER));
            print!("{:>12}{:>10}", per_tone(library), per_tone(peer));
        }
        println!();
    }
}

/// Counting a symbol that was read, by the bytes of its frame, and the share of the symbol time that
/// the library takes.
pub fn print_counting(effort: Effort) {
    println!("time of counting a symbol that was read in a tally");
    println!(
        "{:<34}{:>12}{:>15}{:>14}{:>15}",
        "", "library", "peer", "library/peer", "middle half"
    );
    let mut slowest: f64 = 0.0;
    let mut beyond = Vec::new();
    for bytes in [7681, 1000, 100, 10] {
        let mut ratio: f64 = 0.0;
        for (name, wrong) in [("half wrong", Wrong::Half), ("as sent", Wrong::Nothing)] {
            let measured = measure_counting(effort, bytes, wrong);
            print_count(&format!("{bytes} bytes, {name}"), &measured);
            slowest = slowest.max(measured.median(LIBRARY));
            ratio = ratio.max(measured.ratio(LIBRARY, PEER).median);
        }
        if ratio > 1.0 {
            beyond.push(bytes.to_string());
        }
    }
    println!(
        "counting by the library takes {:.2} % of the symbol time at most",
        100.0 * slowest / SYMBOL_TIME
    );
    match beyond.as_slice() {
        [] => println!("it takes at most 1.0 of the peer's time"),
        lengths => println!(
            "it takes more than 1.0 of the peer's time at {} bytes",
            lengths.join(", ")
        ),
    }
}

fn print_count(name: &str, measured: &Measured<2>) {
    let ratio = measured.ratio(LIBRARY, PEER);
    println!(
        "{name:<34}{:>9.1} ns{:>12.1} ns{:>14.2}{:>15}",
        1e9 * measured.median(LIBRARY),
        1e9 * measured.median(PEER),
        ratio.median,
        middle_half(&ratio),
    );
}

/// Both sides at the same symbols, once they are seen to agree.
fn measure_counting(effort: Effort, bytes: usize, wrong: Wrong) -> Measured<2> {
    let counts: [CountRead; 2] = [clevisroot_sys::tally_read, peer::tally_read];
    let mut counting = Counting::new(bytes, wrong);
    let alike = counting.agree(counts);
    assert!(alike, "the library and the peer differ: {bytes} bytes");
    let cycle = counting.cycle();
    measure(effort, cycle, counts, |count| counting.count(count))
}

/// The clip check by where the first monitored tone is, and how much of reading the same symbol and of
/// checking its tables the library takes for it.
pub fn print_clips(effort: Effort) {
    println!("time of the clip check of 4096 tones, and its share of reading and of checking them");
    println!(
        "{:<34}{:>9}{:>12}{:>14}{:>15}{:>10}{:>11}",
        "", "library", "peer", "library/peer", "middle half", "of read", "of check"
    );
    let (mut of_read, mut of_check): (f64, f64) = (0.0, 0.0);
    for load in CLIP_LOADS {
        let measured = measure_clips(effort, load, 4096);
        print_clip(load, &measured);
        of_read = of_read.max(measured.ratio(LIBRARY, READ).median);
        of_check = of_check.max(measured.ratio(LIBRARY, CHECK).median);
    }
    println!(
        "the clip check by the library takes {:.1} % of reading at most, and {:.1} % of checking",
        100.0 * of_read,
        100.0 * of_check
    );
}

fn print_clip(load: Load, measured: &Measured<4>) {
    let ratio = measured.ratio(LIBRARY, PEER);
    println!(
        "{:<34}{:>6.1} us{:>9.1} us{:>14.2}{:>15}{:>8.1} %{:>9.1} %",
        load.name,
        1e6 * measured.median(LIBRARY),
        1e6 * measured.median(PEER),
        ratio.median,
        middle_half(&ratio),
        100.0 * measured.ratio(LIBRARY, READ).median,
        100.0 * measured.ratio(LIBRARY, CHECK).median,
    );
}

/// A side of the clip check's measurement.
#[derive(Clone, Copy)]
enum Asked {
    Clip(ClipCheck),
    Read(Read),
    Check(Check),
}

/// The library's other calls on the same symbols, after [`LIBRARY`] and [`PEER`].
const READ: usize = 2;
const CHECK: usize = 3;

/// Both clip checks, and the library's reading and checking, once the first are seen to agree.
fn measure_clips(effort: Effort, load: Load, nsc: usize) -> Measured<4> {
    let clip_checks: [ClipCheck; 2] = [clevisroot_sys::clip_check, peer::clip_check];
    let mut workload = Workload::new(load, nsc);
    let alike = workload.agree_clips(clip_checks);
    assert!(alike, "the library and the peer differ: {}", load.name);
    let sides = [
        Asked::Clip(clip_checks[LIBRARY]),
        Asked::Clip(clip_checks[PEER]),
        Asked::Read(clevisroot_sys::read),
        Asked::Check(clevisroot_sys::check),
    ];
    measure(effort, workload.cycle(), sides, |side| match side {
        Asked::Clip(clip_check) => workload.clip_check(clip_check).clip,
        Asked::Read(read) => workload.read(read).size,
        Asked::Check(check) => workload.check(check).size,
    })
}

/// The calls that run once a symbol, each by both sides.
struct PerCall {
    encode: Measured<2>,
    read: Measured<2>,
    nearest: Measured<2>,
}

/// All calls on one workload by both sides, once they are seen to agree.
fn measure_load(effort: Effort, load: Load, nsc: usize) -> PerCall {
    let encoders: [Encode; 2] = [clevisroot_sys::encode, peer::encode];
    let readers: [Read; 2] = [clevisroot_sys::read, peer::read];
    let deciders: [ReadNearest; 2] = [clevisroot_sys::read_nearest, peer::read_nearest];
    let mut workload = Workload::new(load, nsc);
    let alike = workload.agrees(encoders[0], readers[0]) && workload.agree_nearest(deciders);
    assert!(alike, "the library and the peer differ: {}", load.name);
    let cycle = workload.cycle();
    PerCall {
        encode: measure(effort, cycle, encoders, |encode| workload.encode(encode)),
        read: measure(effort, cycle, readers, |read| workload.read(read)),
        nearest: measure(effort, cycle, deciders, |read| workload.read_nearest(read)),
    }
}

/// Measurements whose sides are the starts.
type ByStart = Measured<{ STARTS.len() }>;

/// Encoding and reading of one workload by the library from every start, once it is seen to agree with
/// the peer from each.
fn measure_starts(effort: Effort, load: Load, nsc: usize) -> (ByStart, ByStart) {
    let (encode, read) = (clevisroot_sys::encode_at, clevisroot_sys::read_at);
    let mut workload = Workload::new(load, nsc);
    for start in STARTS {
        let alike = workload.agrees_at(encode, read, start);
        assert!(alike, "the library and the peer differ: start {start}");
    }
    let cycle = workload.cycle();
    let encode = measure(effort, cycle, STARTS, |start| {
        workload.encode_at(encode, start)
    });
    let read = measure(effort, cycle, STARTS, |start| workload.read_at(read, start));
    (encode, read)
}
