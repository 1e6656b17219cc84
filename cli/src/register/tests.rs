//! Tables with silent tones between the monitored ones, held against the library and against all the
//! registers there are.

use super::reach::{Reach, Reaches, Seen};
use super::search::{Found, Search};
use crate::ask::{self, Order};
use crate::files::{Class, Entry, PointList, SymbolText, TableSet};
use crate::index::Subcarrier;
use crate::way::{Family, Way};
use clevisroot_sys::{draw, read_point, RESET};
use Class::{Data, Monitored, Silent};

/// The valid registers, 1 to this.
const REGISTERS: usize = 8_388_607;

/// Numbers that look random and are the same in each run.
pub fn numbers(mut state: u64) -> impl Iterator<Item = u32> {
    std::iter::repeat_with(move || {
        state ^= state << 13;
        state ^= state >> 7;
        state ^= state << 17;
        (state >> 20) as u32
    })
}

/// Registers that look random.
pub fn registers(state: u64) -> impl Iterator<Item = u32> {
    numbers(state).map(|number| number % REGISTERS as u32 + 1)
}

/// The filler bits from a register on.
fn bits_from(register: u32) -> impl Iterator<Item = bool> {
    let drawn = std::iter::successors(Some(draw(register)), |drawn| Some(draw(drawn.reg)));
    drawn.map(|drawn| drawn.bit == 1)
}

/// An uncoded table set with tones of these classes, t being 0, 1, 2 and so on.
fn tables_of(classes: &[Class]) -> (TableSet, Order) {
    let mut set = TableSet::new(false, classes.len());
    for (tone, class) in (0..).zip(classes) {
        let (bits, gain) = match class {
            Data(bits) => (*bits, 512),
            Monitored => (0, 512),
            Silent => (0, 0),
        };
        let tone = Subcarrier(tone);
        set.push_tone(&Entry {
            line: 0,
            tone,
            bits,
            gain,
        });
    }
    let (_, order) = ask::order(&set);
    (set, order)
}

/// What the monitored tones of so many symbols in a row can tell.
fn reach_of(classes: &[Class], symbols: usize) -> Reach {
    let (set, order) = tables_of(classes);
    let mut seen = Seen::nothing();
    for _ in 0..symbols {
        seen.next_symbol(&set, &order);
    }
    seen.reach()
}

/// So many monitored tones, silent and loaded ones between them.
fn scattered(monitored: usize, random: &mut impl Iterator<Item = u32>) -> Vec<Class> {
    let mut classes = Vec::new();
    while count(&classes) < monitored {
        let kinds = [Monitored, Silent, Silent, Data(2)];
        classes.push(kinds[random.next().unwrap() as usize % 4]);
    }
    classes
}

fn count(classes: &[Class]) -> usize {
    classes.iter().filter(|&&class| class == Monitored).count()
}

/// A symbol as the library writes it, and the register after.
fn written(set: &TableSet, register: u32) -> (PointList, u32) {
    let frame = vec![0; ask::frame_bytes(set, 0)];
    let (answer, points) = ask::encode(set, &frame, 0, register);
    assert_eq!(answer.number, 0);
    let mut list = PointList::new("");
    (list.x, list.y) = (points.x, points.y);
    (list, answer.reg)
}

fn search_of(set: &TableSet, order: &Order, points: &PointList) -> Found {
    let mut search = Search::new(Family::Halves);
    search.add(set, order, points);
    search.found()
}

/// Monitored where both bits that this register draws are 1, in each of so many symbols; else silent.
fn ones_of(register: u32, tones: usize, symbols: usize) -> Vec<Class> {
    let bits: Vec<bool> = bits_from(register).take(2 * tones * symbols).collect();
    let mut classes = vec![Monitored; tones];
    for (draw, bit) in bits.into_iter().enumerate() {
        if !bit {
            classes[draw / 2 % tones] = Silent;
        }
    }
    classes
}

#[test]
fn the_sums_are_the_library_s_points() {
    let mut random = numbers(3);
    for first in registers(7).take(200) {
        let (set, order) = tables_of(&scattered(9, &mut random));
        let (mut seen, mut register) = (Seen::nothing(), first);
        for _ in 0..3 {
            let (points, after) = written(&set, register);
            for (place, sums) in seen.next_symbol(&set, &order) {
                let (x, y) = points.at(place).unwrap();
                let [v0, v1] = sums.map(|sum| (sum & first).count_ones() % 2);
                assert_eq!(read_point(2, x, y).label, v0 + 2 * v1);
            }
            register = after;
        }
        let drawn = (0..seen.draws).fold(first, |register, _| draw(register).reg);
        assert_eq!(drawn, register);
    }
}

/// All registers at once: the filler bits of a whole round, 64 a word, begin with each of them at one
/// place.
fn whole_round() -> Vec<u64> {
    let bits: Vec<bool> = bits_from(RESET).take(REGISTERS + 4_096).collect();
    let word = |bits: &[bool]| {
        bits.iter()
            .rev()
            .fold(0, |word, &bit| word << 1 | u64::from(bit))
    };
    bits.chunks(64).map(word).collect()
}

/// How many registers draw this value wherever a bit is seen.
fn registers_with(round: &[u64], seen: &[usize], value: bool) -> usize {
    let same = if value { 0 } else { u64::MAX };
    let at = |place: usize| {
        let (word, bit) = (place / 64, place % 64);
        let above = round[word + 1].checked_shl(64 - bit as u32).unwrap_or(0);
        (round[word] >> bit | above) ^ same
    };
    let places = (0..REGISTERS).step_by(64).map(|first| {
        let alike = seen
            .iter()
            .fold(u64::MAX, |left, place| left & at(first + place));
        // The round has ended before the last word has.
        let there = if first + 64 > REGISTERS {
            u64::MAX >> 1
        } else {
            u64::MAX
        };
        (alike & there).count_ones() as usize
    });
    places.sum()
}

#[test]
fn the_reach_is_what_all_registers_say() {
    let (round, mut random) = (whole_round(), numbers(5));
    let mut tables: Vec<Vec<Class>> = (8..24).map(|tones| scattered(tones, &mut random)).collect();
    tables.extend([
        vec![Monitored; 11],
        vec![Monitored; 12],
        ones_of(4711, 64, 1),
    ]);
    let mut settled = 0;
    for classes in tables {
        let without_bits = classes.iter().filter(|class| !matches!(class, Data(_)));
        let draws = without_bits
            .enumerate()
            .filter(|(_, &class)| class == Monitored);
        let seen: Vec<usize> = draws
            .flat_map(|(tone, _)| [2 * tone, 2 * tone + 1])
            .collect();
        let reach = reach_of(&classes, 1);
        assert_eq!(
            registers_with(&round, &seen, false) + 1,
            1 << (23 - reach.rank)
        );
        assert_eq!(registers_with(&round, &seen, true) == 0, reach.tells_way);
        settled += usize::from(reach.settles());
    }
    assert!((4..16).contains(&settled), "{settled}");
}

/// Silent tones before the first and after the last monitored one do no harm.
#[test]
fn twelve_tones_in_a_row_settle_it() {
    for tones in 0..40 {
        let classes = [vec![Silent; 7], vec![Monitored; tones], vec![Silent; 5]].concat();
        let reach = reach_of(&classes, 1);
        assert_eq!((reach.tones, reach.rank), (tones, 23.min(2 * tones)));
        assert_eq!(
            (reach.tells_way, reach.settles()),
            (tones >= 12, tones >= 12)
        );
    }
}

/// Whatever the equations leave open, nothing wrong is found; and what they settle is found.
#[test]
fn the_register_is_found_among_silent_tones() {
    let (mut random, mut found) = (numbers(13), 0);
    for register in registers(17).take(1_500) {
        let tones = 10 + random.next().unwrap() as usize % 10;
        let classes = scattered(tones, &mut random);
        let (set, order) = tables_of(&classes);
        let (points, _) = written(&set, register);
        let straight = search_of(&set, &order, &points);
        let turned = search_of(&set, &order, &points.undone(Way::Turned));
        let told = (Found::First(register), Found::Other(register));
        match reach_of(&classes, 1).settles() {
            true => assert_eq!((straight, turned), told),
            false => assert_eq!((straight, turned), (Found::Open, Found::Open)),
        }
        found += usize::from((straight, turned) == told);
    }
    assert!((500..1_400).contains(&found), "{found}");
}

/// Two registers whose difference draws only ones where a tone is monitored give opposite points.
#[test]
fn many_tones_may_settle_nothing() {
    for (apart, register) in registers(19).zip(registers(23)).take(20) {
        let classes = ones_of(apart, 400, 1);
        let reach = reach_of(&classes, 1);
        assert!(reach.tones > 60 && reach.fixes_register() && !reach.settles());
        let (set, order) = tables_of(&classes);
        let (points, _) = written(&set, register);
        let (other, _) = written(&set, register ^ apart);
        assert_eq!(
            (other.undone(Way::Turned).x, other.undone(Way::Turned).y),
            (points.x.clone(), points.y.clone())
        );
        assert_eq!(search_of(&set, &order, &points), Found::Open);
        assert_eq!(
            search_of(&set, &order, &points.undone(Way::Turned)),
            Found::Open
        );
    }
}

#[test]
fn twenty_four_symbols_in_a_row_settle_it() {
    for silent in [0, 1, 2, 45, 46, 47, 93, 1_000, 4_095] {
        let classes = [vec![Silent; silent], vec![Monitored]].concat();
        assert!(reach_of(&classes, 24).settles());
    }
}

/// 32 tones of several symbols are not enough either where their equations settle nothing.
#[test]
fn a_stream_is_settled_by_its_equations() {
    let mut thinned = ones_of(4711, 2_000, 3);
    let monitored = thinned.iter_mut().filter(|class| **class == Monitored);
    monitored.skip(13).for_each(|class| *class = Silent);
    let three = reach_of(&thinned, 3);
    assert!(three.tones == 39 && !three.settles());
    let (set, order) = tables_of(&thinned);
    let reaches = Reaches::of(&set, &order);
    assert_eq!(
        (reaches.alone(), reaches.after(26)),
        (reach_of(&thinned, 1), three)
    );
    assert!(reaches.after(39).settles_stream() && reaches.after(390).settles_stream());
    let few = Reaches::of(&tables_of(&[Monitored; 5]).0, &tables_of(&[Monitored; 5]).1);
    assert!(few.after(10).settles() && !few.after(10).settles_stream());
    assert!(few.after(30).settles_stream());
}
