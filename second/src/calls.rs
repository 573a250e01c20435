//! The public calls on lent slices: fresh, take, learn, join, apply.

use crate::panel::{is_panel, state_count, Transition, HEAD_STEP};
use crate::sheets::{
    absent, apply_sheet, is_good_book, is_good_sheet, sheet_after_take, sheet_of_join, sheet_of_set,
};

pub const DONE: u64 = 0;
pub const BOOKED_ALREADY: u64 = 1;
pub const NO_PANEL: u64 = 2;
pub const COUNT_ABOVE_SLICE: u64 = 3;
pub const BAD_BOOK: u64 = 4;
pub const BAD_SHEET: u64 = 5;
pub const NO_STATE: u64 = 6;
pub const OTHER_SUCCESSOR: u64 = 7;
pub const BOOK_FULL: u64 = 8;
pub const SHEET_FULL: u64 = 9;
pub const NOT_REPRODUCED: u64 = 10;
pub const BAD_LAYOUT: u64 = 11;
pub const TEXT_TOO_LONG: u64 = 12;
pub const INPUT_TOO_LONG: u64 = 13;

/// The numbers of every answer; those a call has no use for are 0.
#[derive(Clone, Copy, Debug, Default, PartialEq, Eq)]
pub struct Answer {
    pub code: u64,
    pub place: u64,
    pub book_count: u64,
    pub sheet_count: u64,
    pub struck: u64,
    pub added: u64,
}

impl Answer {
    /// A code, and 0 everywhere else.
    pub fn bare(code: u64) -> Answer {
        Answer { code, ..Answer::default() }
    }
}

/// How many words a slice has room for.
pub fn room<T>(slice: &[T]) -> u64 {
    slice.len() as u64
}

/// The part of a slice that its count says is in use, if the slice is that long.
pub fn in_use(slice: &[u32], count: u64) -> Option<&[u32]> {
    slice.get(..usize::try_from(count).ok()?)
}

/// The words, then 0 to the end of the slice.
pub fn fill(slice: &mut [u32], words: &[u32]) {
    slice.fill(0);
    slice[..words.len()].copy_from_slice(words);
}

/// Code 2.
pub fn judge_panel(n: u32) -> Result<(), u64> {
    require(is_panel(n), NO_PANEL)
}

pub fn require(holds: bool, code: u64) -> Result<(), u64> {
    if holds {
        Ok(())
    } else {
        Err(code)
    }
}

/// Writes n rules with empty bodies.
pub fn fresh(n: u32, sheet: &mut [u32]) -> Answer {
    match judge_fresh(n, room(sheet)) {
        Err(code) => Answer::bare(code),
        Ok(()) => {
            fill(sheet, &empty_bodies(n));
            Answer { sheet_count: u64::from(n), ..Answer::bare(DONE) }
        }
    }
}

fn judge_fresh(n: u32, sheet_room: u64) -> Result<(), u64> {
    judge_panel(n)?;
    require(u64::from(n) <= sheet_room, SHEET_FULL)
}

fn empty_bodies(n: u32) -> Vec<u32> {
    (0..n).map(|head| head * HEAD_STEP).collect()
}

/// Takes one transition into a book and a sheet.
pub fn take(
    n: u32,
    state: u32,
    successor: u32,
    book_count: u64,
    sheet_count: u64,
    book: &mut [u32],
    sheet: &mut [u32],
) -> Answer {
    let transition = Transition { state, successor };
    match taken(n, transition, book_count, sheet_count, book, sheet) {
        Err(code) => Answer { book_count, sheet_count, ..Answer::bare(code) },
        Ok(new) => {
            fill(book, &new.book);
            fill(sheet, &new.sheet);
            Answer {
                book_count: room(&new.book),
                sheet_count: room(&new.sheet),
                struck: new.struck,
                added: new.added,
                ..Answer::bare(DONE)
            }
        }
    }
}

/// A new book and sheet, with what was struck and added on the way.
struct Learned {
    book: Vec<u32>,
    sheet: Vec<u32>,
    struck: u64,
    added: u64,
}

fn taken(
    n: u32,
    transition: Transition,
    book_count: u64,
    sheet_count: u64,
    book: &[u32],
    sheet: &[u32],
) -> Result<Learned, u64> {
    judge_panel(n)?;
    let old_book = in_use(book, book_count).ok_or(COUNT_ABOVE_SLICE)?;
    let old_sheet = in_use(sheet, sheet_count).ok_or(COUNT_ABOVE_SLICE)?;
    require(is_good_book(n, old_book), BAD_BOOK)?;
    require(is_good_sheet(n, old_sheet), BAD_SHEET)?;
    require(transition.state < state_count(n), NO_STATE)?;
    require(transition.successor < state_count(n), NO_STATE)?;
    match successor_in(&transitions(n, old_book), transition.state) {
        Some(successor) if successor == transition.successor => return Err(BOOKED_ALREADY),
        Some(_) => return Err(OTHER_SUCCESSOR),
        None => {}
    }
    let mut new_book = old_book.to_vec();
    new_book.push(transition.word());
    new_book.sort_unstable();
    require(room(&new_book) <= room(book), BOOK_FULL)?;
    let new_sheet = sheet_after_take(n, old_sheet, transition);
    require(room(&new_sheet) <= room(sheet), SHEET_FULL)?;
    Ok(Learned {
        struck: absent(old_sheet, &new_sheet),
        added: absent(&new_sheet, old_sheet),
        book: new_book,
        sheet: new_sheet,
    })
}

/// The transitions of valid words.
fn transitions(n: u32, book: &[u32]) -> Vec<Transition> {
    let part = |word: &u32| Transition::from_word(n, *word).expect("a valid transition word");
    book.iter().map(part).collect()
}

/// The successor that a state has in a set of transitions.
fn successor_in(set: &[Transition], state: u32) -> Option<u32> {
    set.iter().find(|transition| transition.state == state).map(|transition| transition.successor)
}

/// Learns a whole list.
pub fn learn(n: u32, words: &[u32], book: &mut [u32], sheet: &mut [u32]) -> Answer {
    match learned(n, words, room(book), room(sheet)) {
        Err((code, place)) => {
            book.fill(0);
            sheet.fill(0);
            Answer { place, ..Answer::bare(code) }
        }
        Ok(new) => {
            fill(book, &new.book);
            fill(sheet, &new.sheet);
            Answer {
                book_count: room(&new.book),
                sheet_count: room(&new.sheet),
                struck: new.struck,
                added: new.added,
                ..Answer::bare(DONE)
            }
        }
    }
}

/// Each sheet on the way is the sheet of the set of the words so far, found anew by definition:
/// by 01 a take of the sheet of a book gives the sheet of the new book, so these are the sheets
/// that the takes pass through.
fn learned(n: u32, words: &[u32], book_room: u64, sheet_room: u64) -> Result<Learned, (u64, u64)> {
    judge_fresh(n, sheet_room).map_err(|code| (code, 0))?;
    let mut set = Vec::new();
    let mut sheet = sheet_of_set(n, &set);
    let (mut struck, mut added) = (0, 0);
    for (place, word) in words.iter().enumerate() {
        let at_word = |code| (code, place as u64);
        let transition = Transition::from_word(n, *word).ok_or(at_word(NO_STATE))?;
        match successor_in(&set, transition.state) {
            Some(successor) if successor == transition.successor => continue,
            Some(_) => return Err(at_word(OTHER_SUCCESSOR)),
            None => set.push(transition),
        }
        require(room(&set) <= book_room, BOOK_FULL).map_err(at_word)?;
        let new_sheet = sheet_of_set(n, &set);
        require(new_sheet.count() <= sheet_room, SHEET_FULL).map_err(at_word)?;
        struck += sheet.absent_from(&new_sheet);
        added += new_sheet.absent_from(&sheet);
        sheet = new_sheet;
    }
    set.sort_unstable();
    let book = set.iter().map(|transition| transition.word()).collect();
    let sheet = sheet.words();
    for (place, transition) in set.iter().enumerate() {
        let reproduced = apply_sheet(n, &sheet, transition.state) == transition.successor;
        require(reproduced, NOT_REPRODUCED).map_err(|code| (code, place as u64))?;
    }
    Ok(Learned { book, sheet, struck, added })
}

/// A book and a sheet that are only read, with their counts.
#[derive(Clone, Copy)]
pub struct Lent<'a> {
    pub book_count: u64,
    pub sheet_count: u64,
    pub book: &'a [u32],
    pub sheet: &'a [u32],
}

/// Joins two results.
pub fn join(n: u32, a: Lent, b: Lent, book: &mut [u32], sheet: &mut [u32]) -> Answer {
    match joined(n, a, b, room(book), room(sheet)) {
        Err(code) => Answer::bare(code),
        Ok((new_book, new_sheet)) => {
            fill(book, &new_book);
            fill(sheet, &new_sheet);
            Answer {
                book_count: room(&new_book),
                sheet_count: room(&new_sheet),
                ..Answer::bare(DONE)
            }
        }
    }
}

fn joined(
    n: u32,
    a: Lent,
    b: Lent,
    book_room: u64,
    sheet_room: u64,
) -> Result<(Vec<u32>, Vec<u32>), u64> {
    judge_panel(n)?;
    let a_book = in_use(a.book, a.book_count).ok_or(COUNT_ABOVE_SLICE)?;
    let a_sheet = in_use(a.sheet, a.sheet_count).ok_or(COUNT_ABOVE_SLICE)?;
    let b_book = in_use(b.book, b.book_count).ok_or(COUNT_ABOVE_SLICE)?;
    let b_sheet = in_use(b.sheet, b.sheet_count).ok_or(COUNT_ABOVE_SLICE)?;
    require(is_good_book(n, a_book) && is_good_book(n, b_book), BAD_BOOK)?;
    require(is_good_sheet(n, a_sheet) && is_good_sheet(n, b_sheet), BAD_SHEET)?;
    let new_book = union(a_book, b_book);
    // A state in both books with two successors stands twice in the union.
    require(is_good_book(n, &new_book), OTHER_SUCCESSOR)?;
    require(room(&new_book) <= book_room, BOOK_FULL)?;
    let new_sheet = sheet_of_join(n, a_sheet, b_sheet);
    require(room(&new_sheet) <= sheet_room, SHEET_FULL)?;
    Ok((new_book, new_sheet))
}

fn union(a: &[u32], b: &[u32]) -> Vec<u32> {
    let mut words = [a, b].concat();
    words.sort_unstable();
    words.dedup();
    words
}

/// Applies a sheet to a state; the answer and the state it gives.
pub fn apply(n: u32, state: u32, sheet_count: u64, sheet: &[u32]) -> (Answer, u32) {
    match applied(n, state, sheet_count, sheet) {
        Err(code) => (Answer::bare(code), 0),
        Ok(state) => (Answer::bare(DONE), state),
    }
}

fn applied(n: u32, state: u32, sheet_count: u64, sheet: &[u32]) -> Result<u32, u64> {
    judge_panel(n)?;
    let sheet = in_use(sheet, sheet_count).ok_or(COUNT_ABOVE_SLICE)?;
    require(is_good_sheet(n, sheet), BAD_SHEET)?;
    require(state < state_count(n), NO_STATE)?;
    Ok(apply_sheet(n, sheet, state))
}
