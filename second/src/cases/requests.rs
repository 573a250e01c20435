//! One random request of a call.

use super::dice::Dice;
use super::lending::{
    any_good_sheet, any_size, book, count_above, enough, lend, lend_bytes, manner, no_panel,
    relays, room_near, spoil_book, spoil_sheet, successor, transitions, words,
};
use super::sheet_texts;
use super::texts::{lent_text, text};
use crate::desk::{
    shape_of, Request, APPLY, FRESH, JOIN, LEARN, LOOKUP, READ, READ_SHEET, RUN, SESSION_START,
    SESSION_TAKE, TAKE, WRITE,
};
use crate::layout::rules;
use crate::panel::{is_panel, state_count, Transition, STEP};
use crate::session::MOST_TOTAL;
use crate::sheets::{is_good_sheet, sheet_after_take, sheet_of_join, sheet_of_set};
use crate::text::{read, rulesheet, sheet_text, PROGRAM_BYTES, PROGRAM_WORDS};

/// A random request of the call.
pub fn request(dice: &mut Dice, call: u64) -> Request {
    match call {
        FRESH | SESSION_START => request_fresh(dice, call),
        TAKE => request_take(dice),
        SESSION_TAKE => request_session_take(dice),
        LEARN => request_learn(dice),
        JOIN => request_join(dice),
        APPLY => request_apply(dice),
        READ => request_read(dice),
        WRITE => request_write(dice),
        RUN => request_run(dice),
        LOOKUP => request_lookup(dice),
        READ_SHEET => request_read_sheet(dice),
        _ => unreachable!("a shape has one of these calls"),
    }
}

/// The request of a call with these fields.
pub fn made(call: u64, numbers: Vec<u64>, slices: Vec<Vec<u64>>) -> Request {
    let shape = shape_of(call).expect("a call of the format");
    assert_eq!((shape.numbers.len(), shape.slices.len()), (numbers.len(), slices.len()));
    Request { shape, numbers, slices }
}

/// How many things are wrong with a request: mostly none or one; more try the order of codes.
fn damages(dice: &mut Dice) -> u64 {
    *dice.pick(&[0, 0, 0, 0, 1, 1, 1, 1, 1, 2, 2, 3])
}

/// No panel, or a panel of another size.
fn other_size(dice: &mut Dice) -> u32 {
    if dice.one_in(3) {
        relays(dice)
    } else {
        no_panel(dice)
    }
}

/// A number just too large for a state, or far too large.
fn no_state(dice: &mut Dice, n: u32) -> u32 {
    let states = if is_panel(n) { state_count(n) } else { 8 };
    *dice.pick(&[states, states, states + 1, states | 1, 1 << 22, 1 << 31, u32::MAX])
}

fn request_fresh(dice: &mut Dice, call: u64) -> Request {
    let n = if dice.one_in(3) { no_panel(dice) } else { relays(dice) };
    let need = if is_panel(n) || n == 11 { n as usize } else { 5 };
    let room = room_near(dice, need);
    made(call, vec![n.into()], vec![lend(dice, &[], room)])
}

/// What a take is asked with.
struct Taking {
    n: u32,
    transition: Transition,
    book_count: u64,
    sheet_count: u64,
    book: Vec<u64>,
    sheet: Vec<u64>,
}

fn taking(dice: &mut Dice) -> Taking {
    let mut n = relays(dice);
    let set = transitions(dice, n);
    let mut book = book(&set);
    let mut sheet = sheet_for(dice, n, &set);
    let mut transition = unbooked(dice, n, &set);
    let (mut book_full, mut sheet_short) = (false, false);
    let (mut book_above, mut sheet_above, mut fewer) = (false, false, false);
    for _ in 0..damages(dice) {
        match dice.below(14) {
            0 => n = other_size(dice),
            1 => book_above = true,
            2 => sheet_above = true,
            3 if is_panel(n) => spoil_book(dice, n, &mut book),
            4 if is_panel(n) => spoil_sheet(dice, n, &mut sheet),
            5 => transition.state = no_state(dice, n),
            6 => transition.successor = no_state(dice, n),
            7 | 8 if !set.is_empty() => transition = *dice.pick(&set),
            9 if !set.is_empty() => {
                transition = *dice.pick(&set);
                transition.successor ^= 1 << dice.below(u64::from(n.clamp(1, 10)));
            }
            10 => book_full = true,
            11 | 12 => sheet_short = true,
            _ => fewer = true,
        }
    }
    let book_room = if book_full { book.len() } else { enough(dice, book.len() + 1) };
    let mut need = sheet_need(n, &sheet, transition).max(sheet.len());
    for _ in 0..if sheet_short && is_panel(n) { 8 } else { 0 } {
        // Not every take makes the sheet grow; some more are tried.
        let other = unbooked(dice, n, &set);
        let other_need = sheet_need(n, &sheet, other);
        if need == sheet.len() && other_need > need {
            (transition, need) = (other, other_need);
        }
    }
    let sheet_room = if sheet_short {
        // One short of the new sheet, if the old one still fits.
        need.saturating_sub(1 + dice.place(2)).max(sheet.len())
    } else {
        enough(dice, need)
    };
    let mut book_count = book.len() as u64;
    let mut sheet_count = sheet.len() as u64;
    if fewer {
        book_count = dice.below(book_count + 1);
        sheet_count = dice.below(sheet_count + 1);
    }
    if book_above {
        book_count = count_above(dice, book_room);
    }
    if sheet_above {
        sheet_count = count_above(dice, sheet_room);
    }
    let (book, sheet) = (lend(dice, &book, book_room), lend(dice, &sheet, sheet_room));
    Taking { n, transition, book_count, sheet_count, book, sheet }
}

/// Mostly the sheet of the set, else any good sheet.
fn sheet_for(dice: &mut Dice, n: u32, set: &[Transition]) -> Vec<u32> {
    if dice.one_in(4) {
        any_good_sheet(dice, n)
    } else {
        sheet_of_set(n, set).words()
    }
}

/// A transition of a state that is not booked, if there is one.
fn unbooked(dice: &mut Dice, n: u32, set: &[Transition]) -> Transition {
    let booked = |state: &u32| set.iter().any(|transition| transition.state == *state);
    let mut states: Vec<u32> = (0..state_count(n)).filter(|state| !booked(state)).collect();
    if states.is_empty() {
        states = (0..state_count(n)).collect();
    }
    let (state, manner) = (*dice.pick(&states), manner(dice));
    Transition { state, successor: successor(dice, n, manner, state) }
}

/// How many rules the sheet has after the take, if it can be taken.
fn sheet_need(n: u32, sheet: &[u32], transition: Transition) -> usize {
    let can = is_panel(n)
        && is_good_sheet(n, sheet)
        && transition.state < state_count(n)
        && transition.successor < state_count(n);
    if can {
        sheet_after_take(n, sheet, transition).len()
    } else {
        sheet.len()
    }
}

fn request_take(dice: &mut Dice) -> Request {
    let taking = taking(dice);
    let Transition { state, successor } = taking.transition;
    let counts = [taking.book_count, taking.sheet_count];
    let numbers = [vec![taking.n.into(), state.into(), successor.into()], counts.to_vec()].concat();
    made(TAKE, numbers, vec![taking.book, taking.sheet])
}

fn request_session_take(dice: &mut Dice) -> Request {
    let taking = taking(dice);
    let Transition { state, successor } = taking.transition;
    let (struck, added) = totals(dice, taking.n, taking.sheet_count);
    let counts = vec![taking.n.into(), taking.book_count, taking.sheet_count, struck, added];
    let numbers = [counts, vec![state.into(), successor.into()]].concat();
    made(SESSION_TAKE, numbers, vec![taking.book, taking.sheet])
}

/// Totals of struck and added, mostly with n + added = sheet count + struck.
fn totals(dice: &mut Dice, n: u32, sheet_count: u64) -> (u64, u64) {
    let n = u64::from(n);
    // The smallest totals that balance, as far as 64 bits go.
    let (struck, added) = (n.saturating_sub(sheet_count), sheet_count.saturating_sub(n));
    let up_to_most = MOST_TOTAL.saturating_sub(struck.max(added));
    let more = match dice.below(32) {
        0..=15 => dice.below(50),
        16..=18 => dice.below(MOST_TOTAL),
        19..=20 => up_to_most,
        21 => up_to_most + 1,
        22 => up_to_most.saturating_sub(1),
        23 => dice.number(),
        _ => 0,
    };
    let (struck, added) = (struck.wrapping_add(more), added.wrapping_add(more));
    // The last two of these balance only modulo 2^64.
    match dice.below(60) {
        0 => (struck.wrapping_add(1), added),
        1 => (struck, added.wrapping_add(1)),
        2 => (struck.wrapping_sub(1), added),
        3 => (u64::MAX, sheet_count.wrapping_sub(1).wrapping_sub(n)),
        4 => (n.wrapping_sub(1).wrapping_sub(sheet_count), u64::MAX),
        _ => (struck, added),
    }
}

fn request_learn(dice: &mut Dice) -> Request {
    let mut n = relays(dice);
    let mut list = list_of(dice, n);
    let (mut book_short, mut sheet_short, mut no_fresh) = (false, false, false);
    for _ in 0..damages(dice) {
        let place = dice.place(list.len() + 1);
        match dice.below(8) {
            0 => n = other_size(dice),
            1 if is_panel(n) => list.insert(place, no_transition(dice, n)),
            2 | 3 if !list.is_empty() => list.insert(place, *dice.pick(&list) ^ 1),
            4 => book_short = true,
            5 | 6 => sheet_short = true,
            _ => no_fresh = true,
        }
    }
    let (book_need, sheet_need) = learn_need(n, &list);
    let mut book_room = enough(dice, book_need);
    let mut sheet_room = enough(dice, sheet_need);
    if book_short {
        book_room = if dice.one_in(4) { dice.place(book_need + 1) } else { book_need.max(1) - 1 };
    }
    if sheet_short {
        sheet_room =
            if dice.one_in(4) { dice.place(sheet_need + 1) } else { sheet_need.max(1) - 1 };
    }
    if no_fresh {
        sheet_room = dice.place(n.clamp(1, 10) as usize);
    }
    let slices = vec![widened(&list), lend(dice, &[], book_room), lend(dice, &[], sheet_room)];
    made(LEARN, vec![n.into()], slices)
}

fn widened(words: &[u32]) -> Vec<u64> {
    words.iter().map(|word| u64::from(*word)).collect()
}

/// The words of a recording in any order, some of them more than once.
fn list_of(dice: &mut Dice, n: u32) -> Vec<u32> {
    let mut list = words(&transitions(dice, n));
    if !list.is_empty() && dice.one_in(2) {
        for _ in 0..dice.below(4) {
            list.insert(dice.place(list.len() + 1), *dice.pick(&list));
        }
    }
    list
}

/// A word that is no transition of n relays; for some n it may be one of more relays.
fn no_transition(dice: &mut Dice, n: u32) -> u32 {
    let states = state_count(n);
    let words = [states * STEP, states.min(STEP - 1), 1 << 20, 1 << 31, u32::MAX];
    *dice.pick(&words)
}

/// The words that a list needs in the book, and the most rules on the way.
fn learn_need(n: u32, list: &[u32]) -> (usize, usize) {
    if !is_panel(n) {
        return (list.len(), 5);
    }
    let mut set: Vec<Transition> = Vec::new();
    let mut most = n as usize;
    for transition in list.iter().filter_map(|word| Transition::from_word(n, *word)) {
        if set.iter().all(|other| other.state != transition.state) {
            set.push(transition);
            most = most.max(sheet_of_set(n, &set).count() as usize);
        }
    }
    (set.len(), most)
}

fn request_join(dice: &mut Dice) -> Request {
    let mut n = relays(dice);
    let (a_set, b_set) = two_sets(dice, n);
    let mut books = [book(&a_set), book(&b_set)];
    let mut sheets = [sheet_for(dice, n, &a_set), sheet_for(dice, n, &b_set)];
    let (mut above, mut fewer, mut conflict) = ([false; 4], false, false);
    let (mut book_short, mut sheet_short) = (false, false);
    for _ in 0..damages(dice) {
        let which = dice.place(2);
        match dice.below(8) {
            0 => n = other_size(dice),
            1 => above[dice.place(4)] = true,
            2 if is_panel(n) => spoil_book(dice, n, &mut books[which]),
            3 if is_panel(n) => spoil_sheet(dice, n, &mut sheets[which]),
            4 => conflict = true,
            5 => book_short = true,
            6 => sheet_short = true,
            _ => fewer = true,
        }
    }
    if conflict && !books[0].is_empty() {
        // A state of the first book comes into the second with another successor.
        let word = *dice.pick(&books[0]) ^ 1;
        books[1].retain(|other| other / STEP != word / STEP);
        books[1].push(word);
        books[1].sort_unstable();
    }
    let both_books = [&books[0][..], &books[1][..]].concat();
    let mut states: Vec<u32> = both_books.iter().map(|word| word / STEP).collect();
    states.sort_unstable();
    states.dedup();
    let good = is_panel(n) && sheets.iter().all(|sheet| is_good_sheet(n, sheet));
    let need = if good { sheet_of_join(n, &sheets[0], &sheets[1]).len() } else { 5 };
    let book_room = if book_short { states.len().max(1) - 1 } else { enough(dice, states.len()) };
    let sheet_room = if sheet_short { need.max(1) - 1 } else { enough(dice, need) };
    let mut counts = vec![n.into()];
    let mut slices = Vec::new();
    let [a_book, b_book] = books;
    let [a_sheet, b_sheet] = sheets;
    for (words, above) in [a_book, a_sheet, b_book, b_sheet].iter().zip(above) {
        let room = enough(dice, words.len());
        let count = words.len() as u64;
        counts.push(if above {
            count_above(dice, room)
        } else if fewer {
            dice.below(count + 1)
        } else {
            count
        });
        slices.push(lend(dice, words, room));
    }
    slices.push(lend(dice, &[], book_room));
    slices.push(lend(dice, &[], sheet_room));
    made(JOIN, counts, slices)
}

/// Two pieces of one recording, mostly with some transitions in both; or two recordings apart.
fn two_sets(dice: &mut Dice, n: u32) -> (Vec<Transition>, Vec<Transition>) {
    if dice.one_in(6) {
        return (transitions(dice, n), transitions(dice, n));
    }
    let (mut a_set, mut b_set) = (Vec::new(), Vec::new());
    for transition in transitions(dice, n) {
        match dice.below(3) {
            0 => a_set.push(transition),
            1 => b_set.push(transition),
            _ => {
                a_set.push(transition);
                b_set.push(transition);
            }
        }
    }
    (a_set, b_set)
}

fn request_apply(dice: &mut Dice) -> Request {
    let mut n = relays(dice);
    let set = transitions(dice, n);
    let mut sheet = sheet_for(dice, n, &set);
    let mut state = dice.below(u64::from(state_count(n))) as u32;
    let mut above = false;
    let mut fewer = false;
    for _ in 0..damages(dice) {
        match dice.below(5) {
            0 => n = other_size(dice),
            1 => above = true,
            2 if is_panel(n) => spoil_sheet(dice, n, &mut sheet),
            3 => state = no_state(dice, n),
            _ => fewer = true,
        }
    }
    let (count, slice) = lent_sheet(dice, &sheet, above, fewer);
    made(APPLY, vec![n.into(), state.into(), count], vec![slice])
}

/// A sheet that is only read, with a count.
fn lent_sheet(dice: &mut Dice, sheet: &[u32], above: bool, fewer: bool) -> (u64, Vec<u64>) {
    let room = enough(dice, sheet.len());
    let count = if above {
        count_above(dice, room)
    } else if fewer {
        dice.below(sheet.len() as u64 + 1)
    } else {
        sheet.len() as u64
    };
    (count, lend(dice, sheet, room))
}

fn request_write(dice: &mut Dice) -> Request {
    let mut n = relays(dice);
    let set = transitions(dice, n);
    let mut sheet = sheet_for(dice, n, &set);
    let [panel, maker] = [text_beside(dice, n), text_beside(dice, n)];
    let (mut above, mut fewer) = (false, false);
    for _ in 0..damages(dice) {
        match dice.below(4) {
            0 => n = other_size(dice),
            1 => above = true,
            2 if is_panel(n) => spoil_sheet(dice, n, &mut sheet),
            _ => fewer = true,
        }
    }
    let (count, slice) = lent_sheet(dice, &sheet, above, fewer);
    let in_use = &sheet[..sheet.len().min(count.min(1 << 20) as usize)];
    let good = is_panel(n) && is_good_sheet(n, in_use);
    let need = if good { sheet_text(n, in_use, &panel, &maker).len() } else { 30 };
    let room = room_near(dice, need);
    let slices = vec![slice, bytes(&panel), bytes(&maker), lend_bytes(dice, room)];
    made(WRITE, vec![n.into(), count], slices)
}

/// A text to lend beside a sheet, mostly of its size.
fn text_beside(dice: &mut Dice, n: u32) -> Vec<u8> {
    let size = if dice.one_in(3) { relays(dice) } else { n };
    lent_text(dice, size)
}

fn bytes(text: &[u8]) -> Vec<u64> {
    text.iter().map(|byte| u64::from(*byte)).collect()
}

fn request_read(dice: &mut Dice) -> Request {
    let text = text(dice, false);
    let need = words_read(&text).map_or(4, |(_, list)| list.len());
    let room = room_near(dice, need);
    made(READ, vec![], vec![bytes(&text), lend(dice, &[], room)])
}

/// The size and the words of a text, if it is accepted.
fn words_read(text: &[u8]) -> Option<(u32, Vec<u32>)> {
    // No row takes fewer than four bytes, and none gives more than 1,024 words.
    let mut list = vec![0; text.len() / 4 * 1_024];
    let reading = read(text, &mut list);
    list.truncate(reading.count as usize);
    (reading.code == 0).then_some((reading.n, list))
}

fn request_run(dice: &mut Dice) -> Request {
    let text = text(dice, true);
    let rooms = if dice.one_in(100) {
        [PROGRAM_WORDS, PROGRAM_WORDS, PROGRAM_WORDS, PROGRAM_BYTES]
    } else {
        run_rooms(dice, &text)
    };
    let mut slices = vec![bytes(&text)];
    for room in &rooms[..3] {
        slices.push(lend(dice, &[], *room));
    }
    slices.push(lend_bytes(dice, rooms[3]));
    made(RUN, vec![], slices)
}

/// Rooms for list, book, sheet and bytes: enough, and at most one of them short.
fn run_rooms(dice: &mut Dice, text: &[u8]) -> [usize; 4] {
    let printed = rulesheet(text).len();
    let needs = match words_read(text) {
        Some((n, list)) => {
            let (book_need, sheet_need) = learn_need(n, &list);
            [list.len(), book_need, sheet_need, printed]
        }
        None => [4, 4, 4, printed],
    };
    let mut rooms = needs.map(|need| enough(dice, need));
    if dice.one_in(2) {
        let which = dice.place(4);
        rooms[which] = match dice.below(4) {
            0 => dice.place(needs[which] + 1),
            _ => needs[which].saturating_sub(1),
        };
    }
    if dice.one_in(24) {
        rooms[3] = dice.place(20);
    }
    rooms
}

fn request_lookup(dice: &mut Dice) -> Request {
    let sizes = [any_size(dice), any_size(dice)];
    let [panel, maker] = sizes.map(|size| lent_text(dice, size));
    let size = u64::from(*dice.pick(&sizes));
    // Some of the huge ones are columns by their last 32 bits.
    let huge = [11, 1 << 32, (1 << 32) + size - 1, 1 << 63, u64::MAX - 1, u64::MAX];
    let column = match dice.below(10) {
        0 => size,
        1 => size + 1,
        2 => *dice.pick(&huge),
        _ => dice.below(size),
    };
    made(LOOKUP, vec![column], vec![bytes(&panel), bytes(&maker)])
}

fn request_read_sheet(dice: &mut Dice) -> Request {
    let text = sheet_texts::sheet_text(dice);
    let need = rules(&text).map_or(4, |(_, words)| words.len());
    let room = room_near(dice, need);
    made(READ_SHEET, vec![], vec![bytes(&text), lend(dice, &[], room)])
}
