//! What may be behind the refusals of a pair other than the pair itself.

use super::pair::Pair;
use crate::refusal::title;
use clevisroot_sys::refusals::MONITOR;

/// A sentence each.
pub fn remarks(pair: &Pair) -> Vec<String> {
    let remarks = [other_register(pair), other_tables(pair)];
    remarks.into_iter().flatten().collect()
}

/// Monitored tones disagree, and nobody said which register they were written with.
fn other_register(pair: &Pair) -> Option<String> {
    let assumed = pair.source.read.as_ref()?.assumed;
    let refused = pair.count.refusals.contains_key(&MONITOR);
    (assumed && refused).then(|| {
        format!(
            "No register was given: with another one than the writer's, monitored tones are refused \
             with {}, so the register may be the cause.",
            title(MONITOR)
        )
    })
}

/// The table set that is named cannot give some of the refusals.
fn other_tables(pair: &Pair) -> Option<String> {
    let facts = pair.tables.as_ref()?;
    let (mut symbols, mut titles) = (0, Vec::new());
    for (&number, refused) in &pair.count.refusals {
        if !facts.can_refuse(number) {
            symbols += refused;
            titles.push(title(number));
        }
    }
    let last = titles.pop()?;
    let titles = match titles.as_slice() {
        [] => last,
        titles => format!("{} or {last}", titles.join(", ")),
    };
    let refused = match symbols {
        1 => "1 symbol was".to_string(),
        symbols => format!("{symbols} symbols were"),
    };
    Some(format!(
        "{refused} refused with {titles}, which this table set cannot give: it may not be the one that \
         was used."
    ))
}
