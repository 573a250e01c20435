//! The marked tables against the definitions of document 01 as they stand, quantifying over all
//! bodies, for small panels; and what 01 says follows from the definitions.

use second::calls::{apply, fresh, join, learn, take, Answer, Lent};
use second::cases::dice::Dice;
use second::panel::{bodies, state_count, Body, Rule, Transition};
use second::sheets::{apply_sheet, is_good_sheet, sheet_after_take, sheet_of_join, sheet_of_set};

/// A state is negative for h when some successor of it in the set has bit h off.
fn negative(set: &[Transition], head: u32, state: u32) -> bool {
    set.iter().any(|transition| transition.state == state && transition.successor >> head & 1 == 0)
}

fn consistent(n: u32, set: &[Transition], head: u32, body: Body) -> bool {
    (0..state_count(n)).all(|state| !(negative(set, head, state) && body.covers(state)))
}

/// The bodies that hold, and contain no other body that holds.
fn smallest(n: u32, holds: impl Fn(Body) -> bool) -> Vec<Body> {
    let smaller_holds =
        |body: Body| bodies(n).any(|other| other != body && body.contains(other) && holds(other));
    bodies(n).filter(|body| holds(*body) && !smaller_holds(*body)).collect()
}

fn words(n: u32, bodies_of: impl Fn(u32) -> Vec<Body>) -> Vec<u32> {
    let rules = (0..n)
        .flat_map(|head| bodies_of(head).into_iter().map(move |body| Rule { head, body }.word()));
    let mut words: Vec<u32> = rules.collect();
    words.sort();
    words
}

fn literal_sheet(n: u32, set: &[Transition]) -> Vec<u32> {
    words(n, |head| smallest(n, |body| consistent(n, set, head, body)))
}

fn permits(n: u32, sheet: &[u32], head: u32, body: Body) -> bool {
    let rules = sheet.iter().map(|word| Rule::from_word(n, *word).unwrap());
    rules.into_iter().any(|rule| rule.head == head && body.contains(rule.body))
}

fn literal_take(n: u32, sheet: &[u32], transition: Transition) -> Vec<u32> {
    words(n, |head| {
        if transition.successor >> head & 1 == 0 {
            smallest(n, |body| permits(n, sheet, head, body) && !body.covers(transition.state))
        } else {
            let rules = sheet.iter().map(|word| Rule::from_word(n, *word).unwrap());
            rules.filter(|rule| rule.head == head).map(|rule| rule.body).collect()
        }
    })
}

fn literal_join(n: u32, a: &[u32], b: &[u32]) -> Vec<u32> {
    words(n, |head| smallest(n, |body| permits(n, a, head, body) && permits(n, b, head, body)))
}

fn any_transition(dice: &mut Dice, n: u32) -> Transition {
    let states = u64::from(state_count(n));
    Transition { state: dice.below(states) as u32, successor: dice.below(states) as u32 }
}

/// A set that may give one state several successors: the definition of a sheet allows it.
fn any_set(dice: &mut Dice, n: u32) -> Vec<Transition> {
    let count = dice.below(2 * u64::from(state_count(n)));
    (0..count).map(|_| any_transition(dice, n)).collect()
}

/// A set with one successor for each state.
fn recording(dice: &mut Dice, n: u32) -> Vec<Transition> {
    let mut set: Vec<Transition> = Vec::new();
    for transition in any_set(dice, n) {
        if set.iter().all(|other| other.state != transition.state) {
            set.push(transition);
        }
    }
    set
}

/// Bodies of which none contains another.
fn apart(dice: &mut Dice, n: u32) -> Vec<Body> {
    let all: Vec<Body> = bodies(n).collect();
    let mut chosen: Vec<Body> = Vec::new();
    for _ in 0..dice.below(8) {
        let body = *dice.pick(&all);
        if chosen.iter().all(|other| !body.contains(*other) && !other.contains(body)) {
            chosen.push(body);
        }
    }
    chosen
}

/// Any good sheet, whether a recording has it or not.
fn any_good_sheet(dice: &mut Dice, n: u32) -> Vec<u32> {
    let of_heads: Vec<Vec<Body>> = (0..n).map(|_| apart(dice, n)).collect();
    words(n, |head| of_heads[head as usize].clone())
}

#[test]
fn sheets_of_sets() {
    let mut dice = Dice::new(1);
    for n in 1..=4 {
        for _ in 0..60 {
            let set = any_set(&mut dice, n);
            assert_eq!(sheet_of_set(n, &set).words(), literal_sheet(n, &set), "{n} {set:?}");
        }
    }
}

/// The bodies contained in a body, itself among them: parts of P with parts of N.
fn contained(body: Body) -> impl Iterator<Item = Body> {
    let parts = |mask: u32| (0..=mask).filter(move |part| part & mask == *part);
    parts(body.on).flat_map(move |on| parts(body.off).map(move |off| Body { on, off }))
}

#[test]
fn sheets_of_large_panels() {
    // As above, but over the contained bodies alone and for the first and the last head.
    let mut dice = Dice::new(7);
    for n in [7, 10] {
        let set: Vec<Transition> = (0..6).map(|_| any_transition(&mut dice, n)).collect();
        let sheet = sheet_of_set(n, &set).words();
        for head in [0, n - 1] {
            let negative: Vec<u32> =
                (0..state_count(n)).filter(|state| negative(&set, head, *state)).collect();
            let consistent = |body: &Body| negative.iter().all(|state| !body.covers(*state));
            for body in bodies(n) {
                let prime = consistent(&body)
                    && contained(body).all(|other| other == body || !consistent(&other));
                let listed = sheet.binary_search(&Rule { head, body }.word()).is_ok();
                assert_eq!(prime, listed, "{n} {head} {body:?}");
            }
        }
    }
}

#[test]
fn every_recording_of_two_relays() {
    // Each state is unrecorded or has one of four successors: 5^4 recordings.
    for number in 0..625u32 {
        let successor = |state: u32| (number / 5u32.pow(state) % 5).checked_sub(1);
        let set: Vec<Transition> = (0..4)
            .filter_map(|state| successor(state).map(|successor| Transition { state, successor }))
            .collect();
        assert_eq!(sheet_of_set(2, &set).words(), literal_sheet(2, &set));
    }
}

#[test]
fn takes_of_any_good_sheet() {
    let mut dice = Dice::new(2);
    for n in 1..=4 {
        for _ in 0..80 {
            let sheet = any_good_sheet(&mut dice, n);
            assert!(is_good_sheet(n, &sheet));
            let transition = any_transition(&mut dice, n);
            let taken = sheet_after_take(n, &sheet, transition);
            assert_eq!(taken, literal_take(n, &sheet, transition), "{n} {sheet:?} {transition:?}");
            assert!(is_good_sheet(n, &taken));
        }
    }
}

#[test]
fn joins_of_any_good_sheets() {
    let mut dice = Dice::new(3);
    for n in 1..=4 {
        for _ in 0..60 {
            let a = any_good_sheet(&mut dice, n);
            let b = any_good_sheet(&mut dice, n);
            assert_eq!(sheet_of_join(n, &a, &b), literal_join(n, &a, &b), "{n} {a:?} {b:?}");
        }
    }
}

fn words_of(set: &[Transition]) -> Vec<u32> {
    set.iter().map(|transition| transition.word()).collect()
}

const ROOM: usize = 30_000;

/// The answer of learn with a book and a sheet of ample room.
fn learned(n: u32, words: &[u32]) -> (Answer, Vec<u32>, Vec<u32>) {
    let (mut book, mut sheet) = (vec![3; ROOM], vec![3; ROOM]);
    let answer = learn(n, words, &mut book, &mut sheet);
    (answer, book, sheet)
}

#[test]
fn takes_one_by_one_give_what_learn_gives() {
    let mut dice = Dice::new(4);
    for n in [1, 2, 3, 4, 5, 8, 10] {
        for _ in 0..if n > 5 { 3 } else { 20 } {
            let mut set = recording(&mut dice, n);
            // A few transitions of a large panel have some thousand rules already.
            set.truncate(if n > 5 { 6 } else { set.len() });
            let (mut book, mut sheet) = (vec![8; ROOM], vec![8; ROOM]);
            let mut sum = fresh(n, &mut sheet);
            for Transition { state, successor } in &set {
                let (book_count, sheet_count) = (sum.book_count, sum.sheet_count);
                let answer =
                    take(n, *state, *successor, book_count, sheet_count, &mut book, &mut sheet);
                assert_eq!(answer.code, 0);
                let (struck, added) = (sum.struck + answer.struck, sum.added + answer.added);
                sum = Answer { struck, added, ..answer };
            }
            let (answer, learned_book, learned_sheet) = learned(n, &words_of(&set));
            assert_eq!((answer, &learned_sheet), (sum, &sheet));
            if !set.is_empty() {
                assert_eq!(learned_book, book);
            }
            assert_eq!(answer.sheet_count + answer.struck, u64::from(n) + answer.added);
        }
    }
}

#[test]
fn two_pieces_learned_apart_and_joined_give_the_whole() {
    let mut dice = Dice::new(5);
    for n in 1..=5 {
        for _ in 0..20 {
            let whole = recording(&mut dice, n);
            let mut piece = |leaves_out: u64| {
                let mut part = whole.clone();
                part.retain(|transition| u64::from(transition.state) % 3 != leaves_out);
                dice.shuffle(&mut part);
                learned(n, &words_of(&part))
            };
            let (a, b) = (piece(0), piece(1));
            let (mut book, mut sheet) = (vec![5; ROOM], vec![5; ROOM]);
            let lent = |(answer, book, sheet): &'_ (Answer, Vec<u32>, Vec<u32>)| {
                (answer.book_count, answer.sheet_count, book.clone(), sheet.clone())
            };
            let (a, b) = (lent(&a), lent(&b));
            let a = Lent { book_count: a.0, sheet_count: a.1, book: &a.2, sheet: &a.3 };
            let b = Lent { book_count: b.0, sheet_count: b.1, book: &b.2, sheet: &b.3 };
            let answer = join(n, a, b, &mut book, &mut sheet);
            let (all, all_book, all_sheet) = learned(n, &words_of(&whole));
            assert_eq!((answer.book_count, answer.sheet_count), (all.book_count, all.sheet_count));
            assert_eq!((answer.code, book, sheet), (0, all_book, all_sheet));
        }
    }
}

#[test]
fn a_sheet_reproduces_its_recording() {
    let mut dice = Dice::new(6);
    for n in 1..=6 {
        for _ in 0..20 {
            let set = recording(&mut dice, n);
            let sheet = sheet_of_set(n, &set).words();
            for transition in &set {
                assert_eq!(apply_sheet(n, &sheet, transition.state), transition.successor);
                let (answer, state) = apply(n, transition.state, sheet.len() as u64, &sheet);
                assert_eq!((answer.code, state), (0, transition.successor));
            }
        }
    }
}

#[test]
fn rule_110_on_a_ring_of_ten_cells_has_40_rules() {
    let next = |state: u32| {
        (0..10).fold(0, |next, cell| {
            let bit = |place: u32| state >> (place % 10) & 1;
            let neighbourhood = bit(cell + 9) << 2 | bit(cell) << 1 | bit(cell + 1);
            next | (110 >> neighbourhood & 1) << cell
        })
    };
    let set: Vec<Transition> =
        (0..1024).map(|state| Transition { state, successor: next(state) }).collect();
    assert_eq!(sheet_of_set(10, &set).count(), 40);
}
