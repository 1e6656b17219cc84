//! One verdict on all symbols of a stream: the points came the same way from its first to its last.

use super::verdict::Verdict;
use crate::way::{Family, Way};
use std::collections::BTreeSet;

/// What the symbols so far say.
#[derive(Default)]
pub struct Whole {
    /// Ways that are told whatever register was given.
    always: BTreeSet<Way>,
    /// Ways that are told, on a condition or on none.
    sure: BTreeSet<Way>,
    perhaps: BTreeSet<Way>,
    /// Some symbol can be read both ways of its family.
    open: bool,
    /// Some symbol is read in no way.
    neither: bool,
    /// The families that are sure, whatever register was given.
    families: BTreeSet<Family>,
}

impl Whole {
    /// Adds what the ways of a family say of a symbol; no family where that is not sure.
    pub fn add(&mut self, seen: Verdict, family: Option<Family>, conditional: bool) {
        self.families.extend(family);
        match seen {
            Verdict::Sure(way) => {
                self.sure.insert(way);
                if !conditional {
                    self.always.insert(way);
                }
            }
            Verdict::Perhaps(way) => {
                self.perhaps.insert(way);
            }
            Verdict::CannotTell | Verdict::Quarter => self.open = true,
            Verdict::Neither => self.neither = true,
        }
    }

    /// Whether a way is told whatever register was given.
    pub fn holds_always(&self, way: Way) -> bool {
        self.always.contains(&way)
    }

    /// Some symbols are turned by a quarter and some are not, whatever register was given.
    pub fn is_of_both_families(&self) -> bool {
        self.families.len() > 1
    }

    /// None if there was no symbol with a verdict.
    pub fn verdict(&self) -> Option<Verdict> {
        match self.is_of_both_families() {
            true => Some(Verdict::CannotTell),
            false => Some(self.of_ways()?.of_family(self.families.first().copied())),
        }
    }

    /// What holds whatever register was given decides; what holds only if that is the writer's decides if
    /// no symbol speaks against it; then comes what is perhaps so. Symbols that say nothing do not
    /// count against one that does.
    fn of_ways(&self) -> Option<Verdict> {
        let claimed: BTreeSet<Way> = match self.always.is_empty() {
            true => self.sure.union(&self.perhaps).copied().collect(),
            false => self.always.clone(),
        };
        let mut claimed = claimed.into_iter();
        match (claimed.next(), claimed.next()) {
            (Some(_), Some(_)) => Some(Verdict::CannotTell),
            (Some(way), None) if self.is_told(way) => Some(Verdict::Sure(way)),
            (Some(way), None) => Some(Verdict::Perhaps(way)),
            (None, _) if self.open => Some(Verdict::CannotTell),
            (None, _) => self.neither.then_some(Verdict::Neither),
        }
    }

    /// Of the only way that is claimed.
    fn is_told(&self, way: Way) -> bool {
        self.holds_always(way) || (self.sure.contains(&way) && !self.neither)
    }
}

#[cfg(test)]
mod tests {
    use super::Whole;
    use crate::commands::verdict::Verdict::{self, CannotTell, Neither, Perhaps, Quarter, Sure};
    use crate::way::Family::{Halves, Quarters};
    use crate::way::Way::{QuarterLeft, QuarterRight, Straight, Turned};
    use crate::way::{Family, Way};

    fn whole(symbols: &[(Verdict, Option<Family>, bool)]) -> Option<Verdict> {
        let mut whole = Whole::default();
        for &(seen, family, conditional) in symbols {
            whole.add(seen, family, conditional);
        }
        whole.verdict()
    }

    /// The verdict on two ways, case by case: whether each is told whatever register was given, is told,
    /// and is perhaps so; whether a symbol is neither and whether one cannot be told.
    fn by_cases(
        always: [bool; 2],
        sure: [bool; 2],
        perhaps: [bool; 2],
        neither: bool,
        open: bool,
        [first, other]: [Way; 2],
    ) -> Option<Verdict> {
        match (always, sure, perhaps) {
            ([true, true], ..) | ([false, false], [true, true], _) => Some(CannotTell),
            ([true, false], ..) => Some(Sure(first)),
            ([false, true], ..) => Some(Sure(other)),
            (_, [true, false], [_, false]) if !neither => Some(Sure(first)),
            (_, [false, true], [false, _]) if !neither => Some(Sure(other)),
            (_, [false, _], [false, true]) | (_, [false, true], [false, false]) => {
                Some(Perhaps(other))
            }
            (_, [_, false], [true, false]) | (_, [true, false], [false, false]) => {
                Some(Perhaps(first))
            }
            (_, [false, false], [false, false]) if open => Some(CannotTell),
            (_, [false, false], [false, false]) => neither.then_some(Neither),
            _ => Some(CannotTell),
        }
    }

    /// Every set of symbols of one family: with its ways told or perhaps so, open and neither.
    #[test]
    fn two_ways_of_a_family_are_told_case_by_case() {
        for (family, told) in [
            (None, Halves),
            (Some(Halves), Halves),
            (Some(Quarters), Quarters),
        ] {
            let [first, other] = told.ways();
            for bits in 0..256 {
                let has = |bit: usize| bits >> bit & 1 == 1;
                let symbols = [
                    (Sure(first), family, false),
                    (Sure(other), family, false),
                    (Sure(first), family, true),
                    (Sure(other), family, true),
                    (Perhaps(first), family, false),
                    (Perhaps(other), family, false),
                    (CannotTell, family, false),
                    (Neither, None, false),
                ];
                let chosen: Vec<_> = (0..8)
                    .filter(|&bit| has(bit))
                    .map(|bit| symbols[bit])
                    .collect();
                let sure = [has(0) || has(2), has(1) || has(3)];
                let ways = [first, other];
                let expected = by_cases(
                    [has(0), has(1)],
                    sure,
                    [has(4), has(5)],
                    has(7),
                    has(6),
                    ways,
                );
                // Whatever they leave open, a family that is sure stays so.
                let seen = chosen.iter().any(|(_, family, _)| family.is_some());
                let expected = expected.map(|told| told.of_family(family.filter(|_| seen)));
                assert_eq!(whole(&chosen), expected, "{family:?} {bits:08b}");
            }
        }
    }

    #[test]
    fn two_families_contradict_each_other() {
        for even in [
            Sure(Straight),
            Sure(Turned),
            Perhaps(Turned),
            CannotTell,
            Neither,
        ] {
            for quarter in [
                Sure(QuarterLeft),
                Perhaps(QuarterRight),
                CannotTell,
                Neither,
            ] {
                let symbols = [(even, Some(Halves), false), (quarter, Some(Quarters), true)];
                assert_eq!(whole(&symbols), Some(CannotTell));
            }
        }
    }

    #[test]
    fn a_quarter_turn_stays_sure() {
        for (symbols, expected) in [
            (vec![Sure(QuarterLeft)], Sure(QuarterLeft)),
            (vec![Sure(QuarterLeft), CannotTell], Sure(QuarterLeft)),
            (vec![Sure(QuarterLeft), Perhaps(QuarterRight)], Quarter),
            (vec![Sure(QuarterLeft), Neither], Quarter),
            (vec![Perhaps(QuarterLeft)], Quarter),
            (vec![Neither], Quarter),
        ] {
            let symbols: Vec<_> = symbols
                .iter()
                .map(|&seen| (seen, Some(Quarters), true))
                .collect();
            assert_eq!(whole(&symbols), Some(expected), "{symbols:?}");
        }
        assert_eq!(whole(&[]), None);
    }
}
