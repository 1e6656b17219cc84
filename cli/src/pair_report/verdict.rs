//! What the figures of a pair show, in a sentence: no more than they do.

use super::pair::Pair;
use super::rate::Rate;
use crate::refusal::title;
use crate::words::count;
use clevisroot_sys::Tally;

/// What the figures show.
pub enum Finding {
    NoSymbols,
    /// The first symbol that was refused, and its number.
    Refused(u32, u32),
    WrongBits,
    /// No frame has any bits.
    NoBits,
    Clean,
}

impl Finding {
    pub fn of(pair: &Pair) -> Finding {
        let tally = &pair.count.tally;
        match pair.first_refused() {
            _ if tally.symbols == 0 => Finding::NoSymbols,
            Some((symbol, number)) => Finding::Refused(symbol, number),
            None if tally.wrong_frames > 0 => Finding::WrongBits,
            None if Rate::of(pair).bits == 0 => Finding::NoBits,
            None => Finding::Clean,
        }
    }

    /// The verdict in a word or two.
    pub fn word(&self) -> &'static str {
        match self {
            Finding::NoSymbols | Finding::NoBits => "nothing",
            Finding::Refused(..) => "refused",
            Finding::WrongBits => "wrong bits",
            Finding::Clean => "clean",
        }
    }
}

/// The verdict.
pub fn verdict(pair: &Pair) -> String {
    let Tally {
        symbols,
        wrong_frames,
        ..
    } = pair.count.tally;
    let wrong = wrong_words(&pair.count.tally);
    match (Finding::of(pair), symbols) {
        (Finding::NoSymbols, _) => {
            "No symbols were given, so nothing can be said of this pair.".to_string()
        }
        (Finding::Refused(symbol, number), _) => refused_sentence(pair, symbol, number),
        (Finding::WrongBits, 1) => format!("The one symbol {wrong}."),
        (Finding::WrongBits, _) => {
            format!("None of the {symbols} symbols was refused, but {wrong_frames} {wrong}.")
        }
        (Finding::NoBits, 1) => {
            "The one symbol was not refused, but its frame has no bits, so nothing was compared."
                .to_string()
        }
        (Finding::NoBits, _) => format!(
            "None of the {symbols} symbols was refused, but their frames have no bits, so nothing \
             was compared."
        ),
        (Finding::Clean, 1) => "Clean in this one symbol: it was read as it was sent.".to_string(),
        (Finding::Clean, _) => {
            format!("Clean in these {symbols} symbols: each was read as it was sent.")
        }
    }
}

/// "was read wrong, by 3 bits", "were read wrong, by 7 bits in all"
fn wrong_words(tally: &Tally) -> String {
    let bits = count(tally.wrong_bits, "bit");
    match tally.wrong_frames {
        1 => format!("was read wrong, by {bits}"),
        _ => format!("were read wrong, by {bits} in all"),
    }
}

/// Of a pair whose first refused symbol is this one, with this number.
fn refused_sentence(pair: &Pair, symbol: u32, number: u32) -> String {
    let tally = &pair.count.tally;
    let first = format!("symbol {symbol} with {}", title(number));
    let first = match tally.refused {
        1 => format!("was refused, {first}"),
        _ => format!("were refused, the first of them {first}"),
    };
    let (refused, symbols) = (tally.refused, count(tally.symbols, "symbol"));
    let rest = rest_words(pair);
    format!("{refused} of {symbols} {first}; {rest}.")
}

/// What became of the symbols that were not refused.
fn rest_words(pair: &Pair) -> String {
    let tally = &pair.count.tally;
    let wrong = wrong_words(tally);
    let bits = Rate::of(pair).bits;
    match (pair.count.read(), tally.wrong_frames) {
        (0, _) => "none was read".to_string(),
        (1, _) if bits == 0 => {
            "the frame of the other one has no bits, so nothing was compared".to_string()
        }
        (read, _) if bits == 0 => {
            format!("the frames of the other {read} have no bits, so nothing was compared")
        }
        (1, 0) => "the other one was read as it was sent".to_string(),
        (read, 0) => format!("the other {read} were read as they were sent"),
        (1, _) => format!("the other one {wrong}"),
        (read, frames) => format!("of the other {read}, {frames} {wrong}"),
    }
}
