//! The symbols of a pair over time, in no more columns than a sheet has room for.

use super::count::Outcome;

/// A column is then still seen on paper.
const MOST_COLUMNS: usize = 240;

pub struct Strip {
    /// Each is the worst of its symbols.
    pub columns: Vec<Outcome>,
    pub symbols: usize,
}

impl Strip {
    pub fn of(outcomes: &[Outcome]) -> Strip {
        let symbols = outcomes.len();
        let columns = symbols.min(MOST_COLUMNS);
        let worst = |column: usize| {
            let (start, end) = (column * symbols / columns, (column + 1) * symbols / columns);
            let of_column = outcomes[start..end].iter().copied();
            of_column.fold(Outcome::AsSent, Ord::max)
        };
        Strip {
            columns: (0..columns).map(worst).collect(),
            symbols,
        }
    }

    /// The most symbols that a column stands for.
    pub fn symbols_a_column(&self) -> usize {
        self.symbols.div_ceil(MOST_COLUMNS)
    }

    /// A letter a column: `.` read as sent, `w` wrong bits, `R` refused.
    pub fn letters(&self) -> String {
        let letter = |outcome: &Outcome| match outcome {
            Outcome::AsSent => '.',
            Outcome::WrongBits => 'w',
            Outcome::Refused => 'R',
        };
        self.columns.iter().map(letter).collect()
    }
}
