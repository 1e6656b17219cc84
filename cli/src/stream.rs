//! A command over a file of many symbols: each is answered as it comes, and the totals at the end.

use crate::call::Call;
use crate::fault::Fault;
use crate::files::{SymbolText, Symbols};
use crate::options::STOP;
use crate::output::Output;
use crate::report::Report;

/// Reports with the numbers of their symbols.
pub type Reports = Vec<(usize, Report)>;

pub trait Task {
    type Input: SymbolText;

    /// Takes a symbol and hands back the reports that are ready, in the order of their symbols.
    fn take(&mut self, number: usize, input: Self::Input, output: &Output) -> Reports;

    /// No symbol comes any more: hands back the reports that are left.
    fn finish(&mut self, output: &Output) -> Reports;

    /// Whether no symbol can be other than refused, so that the first says all.
    fn are_tables_refused(&self) -> bool;

    fn totals(&self) -> Report;
}

/// Answers for every symbol of the second operand and tells the exit status.
pub fn run<T: Task>(call: &Call, mut task: T) -> Result<u8, Fault> {
    let mut symbols = Symbols::open(&call.operands[1])?;
    let mut output = Output::open(call)?;
    let first = symbols.next()?;
    if task.are_tables_refused() || !symbols.has_more()? {
        let report = first.and_then(|(number, input)| only(&mut task, number, input, &output));
        return report.map_or(Ok(0), |report| output.single(report));
    }
    match answer_all(call, &mut task, &mut symbols, first, &mut output) {
        Ok(()) => output.totals(task.totals()),
        Err(fault) => output.break_off(&fault).and(Err(fault)),
    }
}

fn only<T: Task>(task: &mut T, number: usize, input: T::Input, output: &Output) -> Option<Report> {
    let mut reports = task.take(number, input, output);
    reports.extend(task.finish(output));
    reports.pop().map(|(_, report)| report)
}

fn answer_all<T: Task>(
    call: &Call,
    task: &mut T,
    symbols: &mut Symbols<T::Input>,
    first: Option<(usize, T::Input)>,
    output: &mut Output,
) -> Result<(), Fault> {
    let mut next = first;
    while let Some((number, input)) = next {
        let reports = task.take(number, input, output);
        if deliver(call, reports, output)? {
            return Ok(());
        }
        next = symbols.next()?;
    }
    let reports = task.finish(output);
    deliver(call, reports, output).map(|_| ())
}

/// Delivers reports and tells whether to stop.
fn deliver(call: &Call, reports: Reports, output: &mut Output) -> Result<bool, Fault> {
    for (number, report) in reports {
        let refused = report.refused;
        output.symbol(number, report)?;
        if output.has_no_reader() || (refused && call.has(&STOP)) {
            return Ok(true);
        }
    }
    Ok(false)
}
