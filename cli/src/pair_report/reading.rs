//! Symbols of a pair that are read here, by the proved reader.

use super::counting::Counting;
use super::source::ReadHere;
use super::stop::Stop;
use crate::ask;
use crate::call::Asked;
use crate::fault::Fault;
use crate::files::{Frame, LogEntry, PointList, Received, SymbolText, Symbols, TableSet, Unread};
use crate::output::Output;
use crate::refusal::Question;
use crate::words::count;
use clevisroot_sys::refusals::DONE;

/// Reads one symbol after the other, each with the register that it was written with. The sent frames
/// tell that one: what a refused symbol hands back is behind it, and would spoil those that follow.
pub fn read_points(
    counting: &mut Counting,
    unread: &Unread,
    set: &TableSet,
    start: u8,
    output: &mut Output,
) -> Result<(), Stop> {
    check_start_and_register(counting, set, start, &unread.register)?;
    let mut register = unread.register.value();
    let mut frames = Symbols::<Frame>::open(&unread.sent)?;
    let mut points = Symbols::<PointList>::open(&unread.points)?;
    loop {
        let (frame, symbol) = match (frames.next()?, points.next()?) {
            (Some((_, frame)), Some((_, symbol))) => (frame, symbol),
            (None, None) => return Ok(()),
            (frame, symbol) => {
                let counted = counting.count.tally.symbols as usize;
                let frames = counted + usize::from(frame.is_some()) + left(&mut frames)?;
                let symbols = counted + usize::from(symbol.is_some()) + left(&mut points)?;
                return Err(unequal(&counting.name, unread, [frames, symbols]).into());
            }
        };
        let lists = (symbol.x.as_slice(), symbol.y.as_slice());
        let (answer, read) = ask::read(set, lists, register, start);
        register = ask::encode(set, &frame.bytes, start, register).0.reg;
        let entry = LogEntry {
            sent: frame.bytes,
            received: match answer.number {
                DONE => Received::Read(read),
                number => Received::Refused(number),
            },
        };
        counting.take(&entry, &frame.name, frame.line)?;
        output.counted();
    }
}

/// A start or a register that the library refuses would be refused again for each symbol.
fn check_start_and_register(
    counting: &Counting,
    set: &TableSet,
    start: u8,
    register: &Asked,
) -> Result<(), Stop> {
    let zeros = vec![0; ask::frame_bytes(set, start)];
    let (answer, _) = ask::encode(set, &zeros, start, register.value());
    let question = Question {
        start,
        register: register.value(),
        typed: register.typed(),
        ..Question::of_tables(set)
    };
    counting.accept(&question, &answer)
}

/// How many symbols a file still has.
fn left<T: SymbolText>(symbols: &mut Symbols<T>) -> Result<usize, Fault> {
    let mut left = 0;
    while symbols.next()?.is_some() {
        left += 1;
    }
    Ok(left)
}

fn unequal(pair: &str, unread: &Unread, [frames, symbols]: [usize; 2]) -> Fault {
    let ReadHere { sent, points, .. } = ReadHere::of(unread);
    let (frames, symbols) = (count(frames, "frame"), count(symbols, "symbol"));
    Fault::content(format!(
        "pair {pair}: {sent} has {frames}, and {points} the points of {symbols}: give each frame the \
         points of its symbol"
    ))
}
