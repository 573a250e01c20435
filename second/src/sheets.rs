//! Sheets by definition, found by marking all 3^n bodies of a panel.
//!
//! A table of marks holds one number per body, bit h saying whether the body is marked for head h.
//! Three kinds of marks are used, and each is *closed upwards*: a body that contains a marked body
//! is marked too.
//!
//! * consistent: a containing body covers no more states, so no negative one either
//! * permitted by a sheet: a containing body contains the same body of the sheet
//! * not covering a state: as for consistent
//!
//! and so are the marks that two such tables share.

use crate::panel::{all_on, body_count, Body, Rule, Transition};

/// For each body, by its base-3 number, the heads it is marked for.
#[derive(Clone, PartialEq, Eq)]
pub struct Marks {
    n: u32,
    heads: Vec<u16>,
}

impl Marks {
    fn none(n: u32) -> Marks {
        Marks { n, heads: vec![0; body_count(n)] }
    }

    fn mark(&mut self, body: Body, heads: u32) {
        self.heads[body.index()] |= heads as u16;
    }

    /// For each relay and each body without a contact on it: hands over the three marks of the
    /// body itself, of the body with the relay on added, and of the body with the relay off added.
    fn for_each_triple(&mut self, change: impl Fn(&mut u16, &mut u16, &mut u16)) {
        for relay in 0..self.n {
            let step = body_count(relay);
            for block in self.heads.chunks_exact_mut(3 * step) {
                let (free, contact) = block.split_at_mut(step);
                let (on, off) = contact.split_at_mut(step);
                for ((free, on), off) in free.iter_mut().zip(on).zip(off) {
                    change(free, on, off);
                }
            }
        }
    }

    /// Marks every body that is contained in a marked body.
    fn spread_down(&mut self) {
        self.for_each_triple(|free, on, off| *free |= *on | *off);
    }

    /// Marks every body that contains a marked body.
    fn spread_up(&mut self) {
        self.for_each_triple(|free, on, off| {
            *on |= *free;
            *off |= *free;
        });
    }

    /// The marked bodies that contain no other marked body, for marks closed upwards.
    ///
    /// It is enough to ask for the bodies with one contact fewer. If a body contains another
    /// marked body, walk from that one to the body by adding one contact at a time: each body on
    /// the way contains a marked one and is marked, the last before the end among them, and that
    /// one has one contact fewer than the body. tests/definitions.rs compares with the
    /// definition as it stands, over all contained bodies.
    fn smallest(&self) -> Marks {
        let mut smallest = self.clone();
        for relay in 0..self.n {
            let step = body_count(relay);
            let blocks = smallest.heads.chunks_exact_mut(3 * step);
            for (kept, all) in blocks.zip(self.heads.chunks_exact(3 * step)) {
                let free = &all[..step];
                let (on, off) = kept[step..].split_at_mut(step);
                for ((free, on), off) in free.iter().zip(on).zip(off) {
                    *on &= !free;
                    *off &= !free;
                }
            }
        }
        smallest
    }

    fn both(&self, other: &Marks) -> Marks {
        let heads = self.heads.iter().zip(&other.heads).map(|(a, b)| a & b).collect();
        Marks { n: self.n, heads }
    }

    /// How many rules are marked.
    pub fn count(&self) -> u64 {
        self.heads.iter().map(|heads| u64::from(heads.count_ones())).sum()
    }

    /// How many rules marked here are absent from the other marks.
    pub fn absent_from(&self, other: &Marks) -> u64 {
        let pairs = self.heads.iter().zip(&other.heads);
        pairs.map(|(here, there)| u64::from((here & !there).count_ones())).sum()
    }

    /// The words of the marked rules in increasing order.
    pub fn words(&self) -> Vec<u32> {
        let mut words = Vec::new();
        for (index, heads) in self.heads.iter().enumerate().filter(|(_, heads)| **heads != 0) {
            let body = Body::at(index);
            for head in (0..self.n).filter(|head| heads >> head & 1 == 1) {
                words.push(Rule { head, body }.word());
            }
        }
        words.sort_unstable();
        words
    }
}

/// The heads that are off in a successor.
fn heads_off(n: u32, successor: u32) -> u32 {
    all_on(n) & !successor
}

/// Marks each body for the heads it is consistent for: it covers no negative state of the head.
fn consistent(n: u32, set: &[Transition]) -> Marks {
    let mut covering = Marks::none(n);
    for transition in set {
        let state = Body::of_state(n, transition.state);
        covering.mark(state, heads_off(n, transition.successor));
    }
    // A body covers a state exactly when it is contained in the body of that state.
    covering.spread_down();
    let all = all_on(n) as u16;
    let heads = covering.heads.iter().map(|heads| all & !heads).collect();
    Marks { n, heads }
}

/// The sheet of a set of transitions: all prime rules of all heads.
pub fn sheet_of_set(n: u32, set: &[Transition]) -> Marks {
    consistent(n, set).smallest()
}

/// Marks each body for the heads that the sheet permits it for. The words are valid for n.
fn permitted(n: u32, sheet: &[u32]) -> Marks {
    let mut marks = Marks::none(n);
    for rule in rules(n, sheet) {
        marks.mark(rule.body, 1 << rule.head);
    }
    marks.spread_up();
    marks
}

/// The rules of valid words.
fn rules(n: u32, sheet: &[u32]) -> impl Iterator<Item = Rule> + '_ {
    sheet.iter().map(move |word| Rule::from_word(n, *word).expect("a valid rule word"))
}

/// The sheet after a take. The old sheet is good and the transition valid.
pub fn sheet_after_take(n: u32, sheet: &[u32], transition: Transition) -> Vec<u32> {
    let off = heads_off(n, transition.successor);
    let mut marks = permitted(n, sheet);
    for (index, heads) in marks.heads.iter_mut().enumerate() {
        let covers = Body::at(index).covers(transition.state);
        *heads &= if covers { 0 } else { off as u16 };
    }
    let mut words = marks.smallest().words();
    words.extend(rules(n, sheet).filter(|rule| off >> rule.head & 1 == 0).map(Rule::word));
    words.sort_unstable();
    words
}

/// The sheet of a join: for each head the smallest bodies that both sheets permit.
pub fn sheet_of_join(n: u32, a_sheet: &[u32], b_sheet: &[u32]) -> Vec<u32> {
    permitted(n, a_sheet).both(&permitted(n, b_sheet)).smallest().words()
}

/// Head h is on in the answer exactly if some rule of h covers the state.
pub fn apply_sheet(n: u32, sheet: &[u32], state: u32) -> u32 {
    let covering = rules(n, sheet).filter(|rule| rule.body.covers(state));
    covering.fold(0, |answer, rule| answer | 1 << rule.head)
}

/// How many words of one list are absent from the other; both strictly increasing.
pub fn absent(words: &[u32], other: &[u32]) -> u64 {
    words.iter().filter(|word| other.binary_search(word).is_err()).count() as u64
}

fn strictly_increasing(numbers: &[u32]) -> bool {
    numbers.windows(2).all(|pair| pair[0] < pair[1])
}

/// The words are transition words valid for n, with states strictly increasing.
pub fn is_good_book(n: u32, words: &[u32]) -> bool {
    let transitions: Option<Vec<Transition>> =
        words.iter().map(|word| Transition::from_word(n, *word)).collect();
    transitions.is_some_and(|book| {
        strictly_increasing(&book.iter().map(|transition| transition.state).collect::<Vec<_>>())
    })
}

/// The words are rule words valid for n, strictly increasing, and no two rules of one head have
/// bodies of which one contains the other.
pub fn is_good_sheet(n: u32, words: &[u32]) -> bool {
    if !strictly_increasing(words) {
        return false;
    }
    let sheet: Option<Vec<Rule>> = words.iter().map(|word| Rule::from_word(n, *word)).collect();
    sheet.is_some_and(|sheet| {
        (0..n).all(|head| {
            let bodies: Vec<Body> =
                sheet.iter().filter(|rule| rule.head == head).map(|rule| rule.body).collect();
            !some_contains_another(&bodies)
        })
    })
}

fn some_contains_another(bodies: &[Body]) -> bool {
    bodies.iter().enumerate().any(|(place, body)| {
        bodies[place + 1..].iter().any(|other| body.contains(*other) || other.contains(*body))
    })
}

#[cfg(test)]
mod tests {
    use super::*;

    #[test]
    fn the_sheet_of_no_transition_has_the_empty_bodies() {
        for n in 1..=10 {
            let fresh: Vec<u32> = (0..n).map(|head| head * 1_048_576).collect();
            assert_eq!(sheet_of_set(n, &[]).words(), fresh);
            assert_eq!(sheet_of_set(n, &[]).count(), u64::from(n));
        }
    }

    #[test]
    fn good_books() {
        assert!(is_good_book(1, &[]));
        assert!(is_good_book(1, &[0, 1024]));
        assert!(is_good_book(1, &[1, 1025]));
        assert!(!is_good_book(1, &[0, 1]), "one state twice");
        assert!(!is_good_book(1, &[1024, 0]), "states fall");
        assert!(!is_good_book(1, &[2]), "successor 2");
        assert!(!is_good_book(1, &[2048]), "state 2");
        assert!(is_good_book(10, &[1_048_575]));
        assert!(!is_good_book(10, &[1_048_576]));
    }

    #[test]
    fn good_sheets() {
        assert!(is_good_sheet(1, &[]));
        assert!(is_good_sheet(1, &[0]));
        assert!(is_good_sheet(1, &[1, 1024]), "neither body contains the other");
        assert!(!is_good_sheet(1, &[0, 1024]), "K12");
        assert!(!is_good_sheet(1, &[1024, 1]), "falling");
        assert!(!is_good_sheet(1, &[1, 1]), "twice");
        assert!(!is_good_sheet(1, &[1025]), "relay 0 on and off");
        assert!(!is_good_sheet(1, &[2]), "N of 2");
        assert!(!is_good_sheet(1, &[2048]), "P of 2");
        assert!(!is_good_sheet(1, &[1_048_576]), "head 1");
        assert!(is_good_sheet(2, &[1024, 1_048_576]), "two heads are apart");
    }
}
