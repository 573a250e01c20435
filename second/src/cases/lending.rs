//! Panels, transitions, books, sheets and rooms to lend, good and spoiled.

use super::dice::Dice;
use crate::panel::{
    all_on, body_count, state_count, Body, Rule, Transition, HEAD_STEP, MOST_RELAYS,
};

/// A panel's size, mostly small so that brute force stays quick.
pub fn relays(dice: &mut Dice) -> u32 {
    match dice.below(100) {
        0..=14 => 1,
        15..=39 => 2,
        40..=69 => 3,
        70..=83 => 4,
        84..=90 => 5,
        91..=93 => 6,
        94 => 7,
        95 => 8,
        96 => 9,
        _ => 10,
    }
}

/// Any panel's size, the large ones as often as the small, where nothing is learned.
pub fn any_size(dice: &mut Dice) -> u32 {
    1 + dice.below(u64::from(MOST_RELAYS)) as u32
}

/// A size that makes no panel; some would shift a 32- or 64-bit word out of its width.
pub fn no_panel(dice: &mut Dice) -> u32 {
    let sizes = [0, 0, 0, 11, 11, 11, 12, 16, 31, 32, 33, 63, 64, 1_024, 1 << 31, u32::MAX];
    *dice.pick(&sizes)
}

fn any_state(dice: &mut Dice, n: u32) -> u32 {
    dice.below(u64::from(state_count(n))) as u32
}

/// How the successors of a recording look.
#[derive(Clone, Copy)]
pub enum Manner {
    Any,
    MostlyOn,
    MostlyOff,
    AllOff,
    AllOn,
    NearState,
}

pub fn manner(dice: &mut Dice) -> Manner {
    use Manner::*;
    *dice.pick(&[Any, Any, Any, MostlyOn, MostlyOn, MostlyOff, AllOff, AllOn, NearState])
}

pub fn successor(dice: &mut Dice, n: u32, manner: Manner, state: u32) -> u32 {
    let (one, other) = (any_state(dice, n), any_state(dice, n));
    match manner {
        Manner::Any => one,
        Manner::MostlyOn => one | other,
        Manner::MostlyOff => one & other,
        Manner::AllOff => 0,
        Manner::AllOn => all_on(n),
        Manner::NearState => state ^ (1 << dice.below(u64::from(n))),
    }
}

/// Transitions with one successor for each state, in any order; few for a large panel.
pub fn transitions(dice: &mut Dice, n: u32) -> Vec<Transition> {
    let most = match n {
        1..=4 => u64::from(state_count(n)),
        5..=6 => 12,
        7..=8 if dice.one_in(8) => 30,
        _ if dice.one_in(20) => 10,
        _ => 4,
    };
    let count = if dice.one_in(8) { most } else { dice.below(most + 1) };
    let manner = manner(dice);
    let mut set: Vec<Transition> = Vec::new();
    for _ in 0..count {
        let state = any_state(dice, n);
        if set.iter().all(|transition| transition.state != state) {
            set.push(Transition { state, successor: successor(dice, n, manner, state) });
        }
    }
    set
}

/// The words of transitions in their order.
pub fn words(set: &[Transition]) -> Vec<u32> {
    set.iter().map(|transition| transition.word()).collect()
}

/// The book of transitions.
pub fn book(set: &[Transition]) -> Vec<u32> {
    let mut book = words(set);
    book.sort_unstable();
    book
}

fn any_body(dice: &mut Dice, n: u32) -> Body {
    Body::at(dice.place(body_count(n)))
}

/// Any good sheet, whether a recording has it or not.
pub fn any_good_sheet(dice: &mut Dice, n: u32) -> Vec<u32> {
    let mut rules: Vec<Rule> = Vec::new();
    for head in 0..n {
        for _ in 0..dice.below(6) {
            let body = any_body(dice, n);
            let apart = |rule: &Rule| !rule.body.contains(body) && !body.contains(rule.body);
            if rules.iter().filter(|rule| rule.head == head).all(apart) {
                rules.push(Rule { head, body });
            }
        }
    }
    let mut sheet: Vec<u32> = rules.into_iter().map(Rule::word).collect();
    sheet.sort_unstable();
    sheet
}

/// Changes a book so that it is mostly not good any more.
pub fn spoil_book(dice: &mut Dice, n: u32, book: &mut Vec<u32>) {
    let states = state_count(n);
    let bad_words = [
        states * 1_024,
        states.min(1_023),
        (states - 1) * 1_024 + states,
        1 << 20,
        1 << 31,
        u32::MAX,
    ];
    let any_word = dice.number() as u32;
    let place = dice.place(book.len() + 1);
    match dice.below(7) {
        0 if book.len() > 1 => book.swap(0, 1),
        1 if book.len() > 1 => book.reverse(),
        2 if !book.is_empty() => book.insert(place, book[place.min(book.len() - 1)]),
        3 if !book.is_empty() => {
            // One state with two successors, in increasing order of words.
            let word = book[place.min(book.len() - 1)];
            book.push(word ^ 1);
            book.sort_unstable();
        }
        4 if place < book.len() => book[place] = any_word,
        5 if place < book.len() => book[place] = *dice.pick(&bad_words),
        _ => book.push(*dice.pick(&bad_words)),
    }
}

/// Changes a sheet so that it is mostly not good any more.
pub fn spoil_sheet(dice: &mut Dice, n: u32, sheet: &mut Vec<u32>) {
    let states = state_count(n);
    let head = dice.below(u64::from(n)) as u32;
    let bad_words = [
        n * HEAD_STEP,
        head * HEAD_STEP + 1_024 + 1,
        head * HEAD_STEP + states * 1_024,
        head * HEAD_STEP + states.min(1_023),
        10 * HEAD_STEP,
        1 << 31,
        u32::MAX,
    ];
    let any_word = dice.number() as u32;
    let place = dice.place(sheet.len() + 1);
    match dice.below(8) {
        0 if sheet.len() > 1 => sheet.swap(0, 1),
        1 if sheet.len() > 1 => sheet.reverse(),
        2 if !sheet.is_empty() => sheet.insert(place, sheet[place.min(sheet.len() - 1)]),
        3 if place < sheet.len() => sheet[place] = any_word,
        4 if place < sheet.len() => sheet[place] = *dice.pick(&bad_words),
        5 => {
            sheet.push(*dice.pick(&bad_words));
            sheet.sort_unstable();
        }
        // One body contains the other, in increasing order of words.
        6 if place < sheet.len() => add_neighbour(dice, n, sheet, place),
        _ => {
            sheet.push(head * HEAD_STEP);
            sheet.sort_unstable();
        }
    }
}

/// Adds a rule whose body has one contact more or fewer than that of the rule at the place.
pub fn add_neighbour(dice: &mut Dice, n: u32, sheet: &mut Vec<u32>, place: usize) {
    let Some(mut rule) = Rule::from_word(n, sheet[place]) else {
        return;
    };
    let relay = 1 << dice.below(u64::from(n));
    let used = (rule.body.on | rule.body.off) & relay != 0;
    rule.body.on &= !relay;
    rule.body.off &= !relay;
    if !used && dice.one_in(2) {
        rule.body.on |= relay;
    } else if !used {
        rule.body.off |= relay;
    }
    sheet.push(rule.word());
    sheet.sort_unstable();
}

/// Room for so many elements: exactly enough, one short, or more.
pub fn room_near(dice: &mut Dice, need: usize) -> usize {
    match dice.below(20) {
        0..=8 => need,
        9..=12 => need.saturating_sub(1),
        13..=17 => need + dice.place(7),
        18 => need + 30,
        _ => 0,
    }
}

/// Room for so many elements, and seldom more.
pub fn enough(dice: &mut Dice, need: usize) -> usize {
    need + if dice.one_in(2) { 0 } else { dice.place(6) }
}

/// A slice of that length: the words as far as they fit, then rubbish.
pub fn lend(dice: &mut Dice, words: &[u32], room: usize) -> Vec<u64> {
    let kind = dice.below(5);
    let mut slice: Vec<u64> = words.iter().take(room).map(|word| u64::from(*word)).collect();
    while slice.len() < room {
        slice.push(match kind {
            0 => 0,
            1 => dice.below(1 << 32),
            2 => dice.below(4) << 20 | dice.below(4) << 10 | dice.below(4),
            3 => u64::from(u32::MAX),
            _ => slice.len() as u64 + 1,
        });
    }
    slice
}

/// Bytes of that length to be written over.
pub fn lend_bytes(dice: &mut Dice, room: usize) -> Vec<u64> {
    let kind = dice.below(3);
    let byte = |dice: &mut Dice| match kind {
        0 => 0,
        1 => u64::from(b'?'),
        _ => dice.below(256),
    };
    (0..room).map(|_| byte(dice)).collect()
}

/// A count above a slice of that length; some would leave 64 bits when multiplied or added to.
pub fn count_above(dice: &mut Dice, room: usize) -> u64 {
    let room = room as u64;
    let absurd = [
        room + 2,
        1 << 32,
        (1 << 32) + room,
        1 << 61,
        (1 << 62) + room,
        1 << 63,
        u64::MAX - 1,
        u64::MAX,
    ];
    if dice.one_in(2) {
        room + 1
    } else {
        *dice.pick(&absurd)
    }
}
