//! The ways in which points may have come: as they were written, or every one turned alike.

/// A quarter to the left makes (-Y, X) of (X, Y), counter-clockwise, and a quarter to the right (Y, -X).
#[derive(Clone, Copy, Debug, PartialEq, Eq, PartialOrd, Ord)]
pub enum Way {
    Straight,
    /// By half a turn.
    Turned,
    QuarterLeft,
    QuarterRight,
}

/// Two ways that are half a turn apart. Coded, no symbol is read in one family and in the other,
/// whatever the registers (theorem quarter-any-register).
#[derive(Clone, Copy, Debug, PartialEq, Eq, PartialOrd, Ord)]
pub enum Family {
    Halves,
    Quarters,
}

impl Family {
    /// The families that are told apart: of uncoded tables, quarter turns are not told.
    pub fn told(coded: bool) -> &'static [Family] {
        match coded {
            true => &[Family::Halves, Family::Quarters],
            false => &[Family::Halves],
        }
    }

    pub fn ways(self) -> [Way; 2] {
        match self {
            Family::Halves => [Way::Straight, Way::Turned],
            Family::Quarters => [Way::QuarterLeft, Way::QuarterRight],
        }
    }

    /// Its first way, from which the other is half a turn away.
    pub fn first(self) -> Way {
        self.ways()[0]
    }
}

impl Way {
    /// The point that was written, of one that came this way.
    pub fn undone<T>(self, (x, y): (T, T), opposite: impl Fn(T) -> T) -> (T, T) {
        match self {
            Way::Straight => (x, y),
            Way::Turned => (opposite(x), opposite(y)),
            Way::QuarterLeft => (y, opposite(x)),
            Way::QuarterRight => (opposite(y), x),
        }
    }

    pub fn family(self) -> Family {
        match self {
            Way::Straight | Way::Turned => Family::Halves,
            Way::QuarterLeft | Way::QuarterRight => Family::Quarters,
        }
    }

    pub fn word(self) -> &'static str {
        match self {
            Way::Straight => "straight",
            Way::Turned => "turned",
            Way::QuarterLeft => "quarter left",
            Way::QuarterRight => "quarter right",
        }
    }

    /// By what the points are turned.
    pub fn turn_words(self) -> &'static str {
        match self {
            Way::Straight => "not at all",
            Way::Turned => "by half a turn",
            Way::QuarterLeft => "by a quarter to the left",
            Way::QuarterRight => "by a quarter to the right",
        }
    }

    /// What (X, Y) came as.
    pub fn image(self) -> &'static str {
        match self {
            Way::Straight => "(X, Y)",
            Way::Turned => "(-X, -Y)",
            Way::QuarterLeft => "(-Y, X)",
            Way::QuarterRight => "(Y, -X)",
        }
    }
}

#[cfg(test)]
mod tests {
    use super::{Family, Way};

    /// What the turn does, and that it is undone.
    #[test]
    fn each_turn_is_undone() {
        for (x, y) in [(1, 1), (-3, 5), (0, 0), (191, -7)] {
            for (way, came) in [
                (Way::Straight, (x, y)),
                (Way::Turned, (-x, -y)),
                (Way::QuarterLeft, (-y, x)),
                (Way::QuarterRight, (y, -x)),
            ] {
                assert_eq!(way.undone(came, |number: i16| -number), (x, y));
            }
        }
    }

    /// The ways of a family are half a turn apart.
    #[test]
    fn families_are_half_a_turn_apart() {
        let opposite = |number: i16| -number;
        for family in [Family::Halves, Family::Quarters] {
            let [first, other] = family.ways();
            let half = Way::Turned.undone((3, -5), opposite);
            assert_eq!(
                first.undone(half, opposite),
                other.undone((3, -5), opposite)
            );
            assert!(first.family() == family && other.family() == family);
        }
    }
}
