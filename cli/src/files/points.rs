//! Points as CSV: `x,y`, a line a place in t' order, with or without the header line `x,y`.

use super::numbers::signed;
use super::source::quoted;
use super::symbols::SymbolText;
use crate::index::Place;
use crate::way::Way;
use std::collections::BTreeMap;

/// More places than any tone table has: beyond, points are only counted.
const KEPT: usize = 4_097;

/// The two lists, and the file's line of each place.
pub struct PointList {
    pub x: Vec<i16>,
    pub y: Vec<i16>,
    pub name: String,
    /// The points that the file has for this symbol.
    pub count: usize,
    lines: Vec<usize>,
    /// Points that the lists cannot hold, in words.
    beyond: BTreeMap<usize, (String, String)>,
}

impl SymbolText for PointList {
    fn new(file: &str) -> PointList {
        PointList {
            x: Vec::new(),
            y: Vec::new(),
            name: file.to_string(),
            count: 0,
            lines: Vec::new(),
            beyond: BTreeMap::new(),
        }
    }

    fn is_empty(&self) -> bool {
        self.count == 0
    }

    fn is_header(text: &str) -> bool {
        let mut names = text.split(',').map(str::trim);
        let is =
            |name: Option<&str>, letter| name.is_some_and(|name| name.eq_ignore_ascii_case(letter));
        is(names.next(), "x") && is(names.next(), "y") && names.next().is_none()
    }

    fn take(&mut self, line: usize, text: &str) -> Result<(), String> {
        let message = || format!("{} is not a point: two whole numbers `x,y`", quoted(text));
        let (x_word, y_word) = text.split_once(',').ok_or_else(message)?;
        let (x_word, y_word) = (x_word.trim(), y_word.trim());
        let (x, x_fits) = signed(x_word).ok_or_else(message)?;
        let (y, y_fits) = signed(y_word).ok_or_else(message)?;
        self.count += 1;
        if self.count > KEPT {
            return Ok(());
        }
        if !(x_fits && y_fits) {
            let words = (x_word.to_string(), y_word.to_string());
            self.beyond.insert(self.x.len(), words);
        }
        self.x.push(x);
        self.y.push(y);
        self.lines.push(line);
        Ok(())
    }
}

impl PointList {
    pub fn at(&self, place: Place) -> Option<(i16, i16)> {
        Some((*self.x.get(place.0)?, *self.y.get(place.0)?))
    }

    /// The point, if it is the one that was typed: the type can hold it.
    pub fn typed_at(&self, place: Place) -> Option<(i16, i16)> {
        let held = !self.beyond.contains_key(&place.0);
        self.at(place).filter(|_| held)
    }

    /// The point as it was typed: "(40000, 1)".
    pub fn words_at(&self, place: Place) -> Option<String> {
        let (x, y) = self.at(place)?;
        Some(match self.beyond.get(&place.0) {
            Some((x, y)) => format!("({}, {})", short(x), short(y)),
            None => format!("({x}, {y})"),
        })
    }

    /// The points that were written, if these came this way. What the type cannot hold stays on no
    /// constellation.
    pub fn undone(&self, way: Way) -> PointList {
        let points = self.x.iter().copied().zip(self.y.iter().copied());
        let turned = points.map(|point| way.undone(point, i16::saturating_neg));
        let (x, y) = turned.unzip();
        let beyond = self.beyond_undone(way);
        PointList {
            x,
            y,
            name: self.name.clone(),
            count: self.count,
            lines: self.lines.clone(),
            beyond,
        }
    }

    /// The words of the points that the lists cannot hold, or cannot hold turned.
    fn beyond_undone(&self, way: Way) -> BTreeMap<usize, (String, String)> {
        let mut beyond = BTreeMap::new();
        for (place, (&x, &y)) in self.x.iter().zip(&self.y).enumerate() {
            let typed = self.beyond.get(&place);
            if typed.is_some() || x == i16::MIN || y == i16::MIN {
                let words = typed.cloned().unwrap_or((x.to_string(), y.to_string()));
                beyond.insert(place, way.undone(words, |word| opposite(&word)));
            }
        }
        beyond
    }

    pub fn line_of(&self, place: Place) -> Option<usize> {
        self.lines.get(place.0).copied()
    }
}

/// A typed number with the other sign.
fn opposite(word: &str) -> String {
    match word.strip_prefix('-') {
        Some(digits) => digits.to_string(),
        None if word.bytes().all(|byte| byte == b'0') => word.to_string(),
        None => format!("-{}", word.strip_prefix('+').unwrap_or(word)),
    }
}

fn short(word: &str) -> String {
    const LONG: usize = 12;
    match word.len() {
        0..=LONG => word.to_string(),
        _ => format!("{}...", &word[..LONG]),
    }
}
