//! "Coding one pair": the encoder state, the words u, v and w of a pair, and both directions over
//! all pairs of a symbol.

use crate::reordering::Pair;

/// The encoder state, zero at the start.
#[derive(Clone, Copy, Debug, Default, PartialEq, Eq, PartialOrd, Ord)]
pub struct State {
    pub s3: bool,
    pub s2: bool,
    pub s1: bool,
    pub s0: bool,
}

impl State {
    /// The next state (T3, T2, T1, T0) after a pair with these u1 and u2.
    pub fn next(self, u1: bool, u2: bool) -> State {
        let State { s3, s2, s1, s0 } = self;
        let t0 = s1 ^ s3 ^ u1;
        let t1 = s2 ^ u2;
        let t2 = s0;
        let t3 = s1;
        State {
            s3: t3,
            s2: t2,
            s1: t1,
            s0: t0,
        }
    }

    /// Codes one pair: from its frame bits to the next state and the sent bits.
    fn step(self, pair: Pair, last_two: bool, frame: &[bool]) -> (State, Vec<bool>) {
        let mut u = vec![false; word_len(pair)];
        u[0] = self.s0;
        if last_two {
            u[1] = self.forced_u1();
            u[2] = self.forced_u2();
        }
        for (k, &bit) in frame_places(pair, last_two).into_iter().zip(frame) {
            u[k] = bit;
        }
        (self.next(u[1], u[2]), sent_bits(pair, &u))
    }

    /// The next state after a pair whose labels imply this word u, unless it breaks the code.
    pub fn read(self, u: &[bool], last_two: bool) -> Option<State> {
        let forced = u[1] == self.forced_u1() && u[2] == self.forced_u2();
        let breaks = u[0] != self.s0 || (last_two && !forced);
        (!breaks).then(|| self.next(u[1], u[2]))
    }

    /// The u1 that the last two pairs must have.
    fn forced_u1(self) -> bool {
        self.s1 ^ self.s3
    }

    /// The u2 that the last two pairs must have.
    fn forced_u2(self) -> bool {
        self.s2
    }
}

/// Which of the u are frame bits, in the frame's order.
fn frame_places(pair: Pair, last_two: bool) -> Vec<usize> {
    let Pair { x, y } = pair;
    if x == 0 {
        let mut places = vec![2];
        places.extend(4..=y + 1);
        places
    } else if last_two {
        (3..=x + y - 1).collect()
    } else {
        (1..=x + y - 1).collect()
    }
}

/// How many u the pair has, u0 among them; for x = 0 they end at u(y+1).
fn word_len(pair: Pair) -> usize {
    if pair.x == 0 {
        pair.y + 2
    } else {
        pair.x + pair.y
    }
}

/// The sent bits of a word u: v then w, lowest first. For x = 0 no v is sent.
fn sent_bits(pair: Pair, u: &[bool]) -> Vec<bool> {
    let Pair { x, y } = pair;
    let mut v = vec![u[3], u[1] ^ u[3]];
    let mut w = vec![u[2] ^ u[3], u[0] ^ u[1] ^ u[2] ^ u[3]];
    if x == 0 {
        w.extend(&u[4..=y + 1]);
        w
    } else {
        v.extend(&u[4..=x + 1]);
        w.extend(&u[x + 2..=x + y - 1]);
        [v, w].concat()
    }
}

/// The word u that the labels v and w imply: the four equations solved for u0 to u3.
pub fn implied_word(pair: Pair, v: &[bool], w: &[bool]) -> Vec<bool> {
    let (u1, u3) = if pair.x == 0 {
        (false, false)
    } else {
        (v[1] ^ v[0], v[0])
    };
    let u2 = w[0] ^ u3;
    let u0 = w[1] ^ u1 ^ u2 ^ u3;
    let mut u = vec![u0, u1, u2, u3];
    u.extend(v.iter().skip(2));
    u.extend(w.iter().skip(2));
    u
}

/// Whether the pair of this number is one of the last two.
pub fn is_last_two(number: usize, pairs: &[Pair]) -> bool {
    number + 2 >= pairs.len()
}

/// The sent bits of a symbol, from the L bits of its frame.
pub fn encode_pairs(pairs: &[Pair], frame: &[bool]) -> Vec<bool> {
    let mut state = State::default();
    let mut rest = frame;
    let mut sent = Vec::new();
    for (number, &pair) in pairs.iter().enumerate() {
        let last_two = is_last_two(number, pairs);
        let (taken, after) = rest.split_at(frame_places(pair, last_two).len());
        rest = after;
        let (next, bits) = state.step(pair, last_two, taken);
        sent.extend(bits);
        state = next;
    }
    sent
}

/// The L frame bits that the sent bits carry, or the first pair that breaks the code.
pub fn read_pairs(pairs: &[Pair], sent: &[bool]) -> Result<Vec<bool>, usize> {
    let mut state = State::default();
    let mut rest = sent;
    let mut frame = Vec::new();
    for (number, &pair) in pairs.iter().enumerate() {
        let last_two = is_last_two(number, pairs);
        let (v, after) = rest.split_at(pair.x);
        let (w, after) = after.split_at(pair.y);
        rest = after;
        let u = implied_word(pair, v, w);
        state = state.read(&u, last_two).ok_or(number)?;
        frame.extend(frame_places(pair, last_two).iter().map(|&k| u[k]));
    }
    Ok(frame)
}
