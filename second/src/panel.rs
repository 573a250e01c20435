//! Panels, states, transitions, bodies and rules, and their words.

/// A panel has at most this many relays.
pub const MOST_RELAYS: u32 = 10;

/// The factor of the state in a transition word, and of P in a rule word.
pub const STEP: u32 = 1_024;

/// The factor of the head in a rule word.
pub const HEAD_STEP: u32 = 1_048_576;

/// True when n relays make a panel.
pub fn is_panel(n: u32) -> bool {
    (1..=MOST_RELAYS).contains(&n)
}

/// How many states a panel has: 2^n.
pub fn state_count(n: u32) -> u32 {
    1 << n
}

/// The state with every relay pulled in; also the mask of all heads.
pub fn all_on(n: u32) -> u32 {
    state_count(n) - 1
}

/// A state and its successor.
#[derive(Clone, Copy, Debug, PartialEq, Eq, PartialOrd, Ord)]
pub struct Transition {
    pub state: u32,
    pub successor: u32,
}

impl Transition {
    pub fn word(self) -> u32 {
        self.state * STEP + self.successor
    }

    /// The transition of a word, if the word is valid for n.
    pub fn from_word(n: u32, word: u32) -> Option<Transition> {
        // A successor below 2^n is below 1,024, so the division is the only way to part the word.
        let (state, successor) = (word / STEP, word % STEP);
        let valid = state < state_count(n) && successor < state_count(n);
        valid.then_some(Transition { state, successor })
    }
}

/// Two masks: the relays that must be on (P) and those that must be off (N).
#[derive(Clone, Copy, Debug, PartialEq, Eq)]
pub struct Body {
    pub on: u32,
    pub off: u32,
}

impl Body {
    /// Every bit of P is on in the state and every bit of N is off.
    pub fn covers(self, state: u32) -> bool {
        self.on & state == self.on && self.off & state == 0
    }

    /// Both masks include the other's.
    pub fn contains(self, other: Body) -> bool {
        self.on & other.on == other.on && self.off & other.off == other.off
    }

    /// The body that covers this state and no other.
    pub fn of_state(n: u32, state: u32) -> Body {
        Body { on: state, off: all_on(n) & !state }
    }

    /// Bodies are numbered in base 3: digit i is 0 when relay i does not matter, 1 when it must
    /// be on, 2 when it must be off.
    pub fn index(self) -> usize {
        let mut index = 0;
        for relay in (0..MOST_RELAYS).rev() {
            let digit = if self.on >> relay & 1 == 1 {
                1
            } else if self.off >> relay & 1 == 1 {
                2
            } else {
                0
            };
            index = index * 3 + digit;
        }
        index
    }

    /// The body of a number below 3^n.
    pub fn at(index: usize) -> Body {
        let mut body = Body { on: 0, off: 0 };
        let mut rest = index;
        let mut relay = 0;
        while rest > 0 {
            match rest % 3 {
                1 => body.on |= 1 << relay,
                2 => body.off |= 1 << relay,
                _ => {}
            }
            rest /= 3;
            relay += 1;
        }
        body
    }
}

/// How many bodies a panel has: 3^n.
pub fn body_count(n: u32) -> usize {
    3usize.pow(n)
}

/// Every body of the panel, each once.
pub fn bodies(n: u32) -> impl Iterator<Item = Body> {
    (0..body_count(n)).map(Body::at)
}

/// A head and a body.
#[derive(Clone, Copy, Debug, PartialEq, Eq)]
pub struct Rule {
    pub head: u32,
    pub body: Body,
}

impl Rule {
    pub fn word(self) -> u32 {
        self.head * HEAD_STEP + self.body.on * STEP + self.body.off
    }

    /// The rule of a word, if the word is valid for n.
    pub fn from_word(n: u32, word: u32) -> Option<Rule> {
        let head = word / HEAD_STEP;
        let body = Body { on: word / STEP % STEP, off: word % STEP };
        let valid = head < n
            && body.on < state_count(n)
            && body.off < state_count(n)
            && body.on & body.off == 0;
        valid.then_some(Rule { head, body })
    }
}

#[cfg(test)]
mod tests {
    use super::*;

    #[test]
    fn every_body_has_its_own_number() {
        for n in 1..=6 {
            let mut seen = Vec::new();
            for on in 0..state_count(n) {
                for off in (0..state_count(n)).filter(|off| on & off == 0) {
                    let body = Body { on, off };
                    assert!(body.index() < body_count(n));
                    assert_eq!(Body::at(body.index()), body);
                    seen.push(body.index());
                }
            }
            seen.sort();
            assert_eq!(seen, (0..body_count(n)).collect::<Vec<_>>());
        }
    }

    #[test]
    fn words_part_into_what_made_them() {
        for n in 1..=3 {
            let mut valid = 0;
            for word in 0..4 * HEAD_STEP {
                if let Some(rule) = Rule::from_word(n, word) {
                    assert_eq!(rule.word(), word);
                    valid += 1;
                }
                if let Some(transition) = Transition::from_word(n, word) {
                    assert_eq!(transition.word(), word);
                }
            }
            assert_eq!(valid, n as usize * body_count(n));
        }
        assert_eq!(Transition::from_word(10, 1_048_576), None);
        assert_eq!(Transition::from_word(10, u32::MAX), None);
        assert_eq!(Rule::from_word(10, u32::MAX), None);
    }

    #[test]
    fn a_body_of_a_state_covers_it_alone() {
        for state in 0..8 {
            let covered: Vec<u32> =
                (0..8).filter(|other| Body::of_state(3, state).covers(*other)).collect();
            assert_eq!(covered, [state]);
        }
    }
}
