//! Some requests of ten relays with large sheets, and slices of the greatest length.

use super::dice::Dice;
use super::requests::made;
use crate::desk::{
    Request, APPLY, FRESH, JOIN, LEARN, LOOKUP, MOST_BYTES, MOST_WORDS, READ, READ_SHEET,
    SESSION_TAKE, TAKE, WRITE,
};
use crate::panel::{Transition, MOST_RELAYS};
use crate::sheets::{sheet_after_take, sheet_of_join, sheet_of_set};
use crate::text::sheet_text;

const N: u64 = MOST_RELAYS as u64;
const SEED: u64 = 10;
const RUBBISH: u64 = 77;

/// The large requests, always the same: exactly enough room, and one short.
pub fn large() -> Vec<Request> {
    let mut dice = Dice::new(SEED);
    let set = any_set(&mut dice, 41);
    let (first, rest) = set.split_at(20);
    let (second, last) = (&rest[..20], rest[20]);
    [
        learns(&set[..30]),
        takes(&set[..40], last),
        joins(first, second),
        applied_and_written(&set[..12]),
        read_back(&mut dice, &set),
        vec![elementary(110), elementary(30)],
        longest(),
        longest_texts(),
    ]
    .concat()
}

/// Transitions of different states.
fn any_set(dice: &mut Dice, count: usize) -> Vec<Transition> {
    let mut states: Vec<u32> = (0..1 << N).collect();
    dice.shuffle(&mut states);
    let any = |state: &u32| Transition { state: *state, successor: dice.below(1 << N) as u32 };
    states[..count].iter().map(any).collect()
}

fn rubbish(room: usize) -> Vec<u64> {
    vec![RUBBISH; room]
}

fn widened(words: &[u32]) -> Vec<u64> {
    words.iter().map(|word| u64::from(*word)).collect()
}

fn words_of(set: &[Transition]) -> Vec<u64> {
    set.iter().map(|transition| u64::from(transition.word())).collect()
}

/// A book with so much room more.
fn book_of(set: &[Transition], more: usize) -> Vec<u64> {
    let mut book = words_of(set);
    book.sort_unstable();
    book.extend(rubbish(more));
    book
}

fn learns(set: &[Transition]) -> Vec<Request> {
    let counts = (0..=set.len()).map(|words| sheet_of_set(N as u32, &set[..words]).count());
    let most = counts.max().expect("the sheet of no words") as usize;
    let learn = |book_room: usize, sheet_room: usize| {
        made(LEARN, vec![N], vec![words_of(set), rubbish(book_room), rubbish(sheet_room)])
    };
    let books = set.len();
    vec![learn(books, most), learn(books, most - 1), learn(books - 1, most), learn(books, 20_000)]
}

fn takes(set: &[Transition], last: Transition) -> Vec<Request> {
    let old = sheet_of_set(N as u32, set).words();
    let new = sheet_after_take(N as u32, &old, last);
    let most = old.len().max(new.len());
    let mut requests = Vec::new();
    for room in [most, most - 1, most + 9] {
        let mut sheet = widened(&old);
        sheet.resize(room.max(old.len()), RUBBISH);
        let counts = [set.len() as u64, old.len() as u64];
        let states = [u64::from(last.state), u64::from(last.successor)];
        let numbers = [&[N], &states[..], &counts].concat();
        requests.push(made(TAKE, numbers, vec![book_of(set, 1), sheet.clone()]));
        // Totals that balance: N + added = sheet count + struck.
        let totals = [100, 100 + old.len() as u64 - N];
        let numbers = [&[N], &counts[..], &totals, &states].concat();
        requests.push(made(SESSION_TAKE, numbers, vec![book_of(set, 1), sheet]));
    }
    requests
}

fn joins(a_set: &[Transition], b_set: &[Transition]) -> Vec<Request> {
    let sheet_of = |set: &[Transition]| sheet_of_set(N as u32, set).words();
    let (a_sheet, b_sheet) = (sheet_of(a_set), sheet_of(b_set));
    let need = sheet_of_join(N as u32, &a_sheet, &b_sheet).len();
    let counts = [a_set.len(), a_sheet.len(), b_set.len(), b_sheet.len()].map(|count| count as u64);
    let join = |book_room: usize, sheet_room: usize| {
        let a = [book_of(a_set, 0), widened(&a_sheet)];
        let b = [book_of(b_set, 0), widened(&b_sheet)];
        let out = [rubbish(book_room), rubbish(sheet_room)];
        made(JOIN, [&[N], &counts[..]].concat(), [a, b, out].concat())
    };
    let books = a_set.len() + b_set.len();
    vec![join(books, need), join(books, need - 1), join(books - 1, need), join(books + 5, need + 5)]
}

fn applied_and_written(set: &[Transition]) -> Vec<Request> {
    let sheet = sheet_of_set(N as u32, set).words();
    let (words, count) = (widened(&sheet), sheet.len() as u64);
    let apply = |state: u64| made(APPLY, vec![N, state, count], vec![words.clone()]);
    let states = [0, 1, 511, 682, 1_023, 1_024];
    let mut requests = states.map(apply).to_vec();
    let named = named_recording();
    let plain = b".i 10\n.o 10\n.type fr\n.e\n".to_vec();
    for (panel, maker) in [(&plain, &plain), (&named, &vec![]), (&plain, &named)] {
        let length = sheet_text(N as u32, &sheet, panel, maker).len();
        for room in [length, length - 1, length + 40] {
            let slices = vec![words.clone(), bytes(panel), bytes(maker), rubbish(room)];
            requests.push(made(WRITE, vec![N, count], slices));
        }
    }
    requests
}

/// A sheet as it was written, and shuffled with names: read, looked up in, and spoiled by a row that
/// stands twice or lies within another.
fn read_back(dice: &mut Dice, set: &[Transition]) -> Vec<Request> {
    let sheet = sheet_of_set(N as u32, set).words();
    let written = sheet_text(N as u32, &sheet, b"", b"");
    let (headers, rows) = written.split_at(written.find(".p ").expect("the number of rows"));
    let mut rows: Vec<&str> = rows.lines().skip(1).filter(|row| *row != ".e").collect();
    dice.shuffle(&mut rows);
    let text = |rows: &[&str]| format!("{headers}{}{}\n.e\n", name_lines(), rows.join("\n"));
    let shuffled = text(&rows);
    let read_sheet = |text: &str, room: usize| {
        made(READ_SHEET, vec![], vec![bytes(text.as_bytes()), rubbish(room)])
    };
    let need = rows.len();
    let mut requests = vec![read_sheet(&written, need)];
    requests.extend([need, need - 1, need + 9].map(|room| read_sheet(&shuffled, room)));
    // The last row has contacts, as all have: each relay is off after some recorded state.
    let last = rows[need - 1];
    for other in [last.to_string(), last.replacen(['0', '1'], "-", 1)] {
        let spoiled = text(&[&[other.as_str()], &rows[..]].concat());
        requests.extend([need + 1, need].map(|room| read_sheet(&spoiled, room)));
    }
    let lookup =
        |panel: &[u8], maker: &[u8]| made(LOOKUP, vec![N - 1], vec![bytes(panel), bytes(maker)]);
    requests.push(lookup(shuffled.as_bytes(), b""));
    requests.push(lookup(written.as_bytes(), shuffled.as_bytes()));
    requests
}

/// Both name lines of ten relays whose names have 16 characters.
fn name_lines() -> String {
    let names: Vec<String> = (0..N).map(|relay| format!(" VALVE_OF_TANK_{relay:02}")).collect();
    let names = names.concat();
    format!(".ilb{names}\n.ob{names}\n")
}

/// A recording of ten relays with names.
fn named_recording() -> Vec<u8> {
    let headers = format!(".i 10\n.o 10\n{}.type fr\n", name_lines());
    format!("{headers}1111111111 0000000000\n.e\n").into_bytes()
}

fn bytes(text: &[u8]) -> Vec<u64> {
    text.iter().map(|byte| u64::from(*byte)).collect()
}

/// All states of a ring of ten cells under an elementary rule, in increasing order.
fn elementary(rule: u64) -> Request {
    let next = |state: u64| -> u64 {
        let cell = |place: u64| state >> (place % N) & 1;
        let on = |place: &u64| {
            let neighbours = cell(place + N - 1) << 2 | cell(*place) << 1 | cell(place + 1);
            rule >> neighbours & 1 == 1
        };
        (0..N).filter(on).map(|place| 1 << place).sum()
    };
    let words = (0..1 << N).map(|state| state * 1_024 + next(state)).collect();
    made(LEARN, vec![N], vec![words, rubbish(1_024), rubbish(4_096)])
}

/// Slices as long as they may be, and a sheet with one row more; and rows that stand for 1,024
/// states.
fn longest() -> Vec<Request> {
    let most = MOST_WORDS as usize;
    let row = b"---------- 1010101010\n";
    let text = bytes(&[&b".i 10\n.o 10\n.type fr\n"[..], row, row, b".e\n"].concat());
    let rule = "---------- 0000000001\n".repeat(most + 1);
    let rules = bytes(format!(".i 10\n.o 10\n.type f\n{rule}.e\n").as_bytes());
    let comment: Vec<u64> = vec![u64::from(b'#'); MOST_BYTES as usize];
    vec![
        made(FRESH, vec![N], vec![rubbish(most)]),
        made(LEARN, vec![N], vec![vec![0; most], rubbish(most), rubbish(most)]),
        made(READ, vec![], vec![text.clone(), rubbish(2_048)]),
        made(READ, vec![], vec![text, rubbish(2_047)]),
        made(READ, vec![], vec![comment.clone(), rubbish(most)]),
        made(READ_SHEET, vec![], vec![comment, rubbish(most)]),
        made(READ_SHEET, vec![], vec![rules, rubbish(most)]),
        made(WRITE, vec![N, 0], vec![rubbish(most), vec![], vec![], rubbish(most)]),
    ]
}

/// Names that stand at the end of a text as long as it may be, behind a comment.
fn longest_texts() -> Vec<Request> {
    let named = named_recording();
    let comment = vec![b'#'; MOST_BYTES as usize - named.len() - 1];
    let names_last = bytes(&[&comment, &b"\n"[..], &named].concat());
    let plain = bytes(b".i 10\n.o 10\n.type fr\n.e\n");
    let lookup = |column: u64, panel: &[u64], maker: &[u64]| {
        made(LOOKUP, vec![column], vec![panel.to_vec(), maker.to_vec()])
    };
    vec![
        lookup(N - 1, &names_last, &[]),
        lookup(0, &plain, &names_last),
        made(READ, vec![], vec![names_last.clone(), rubbish(1)]),
        made(WRITE, vec![N, 0], vec![vec![], plain, names_last, rubbish(400)]),
    ]
}
