//! The order of codes, the numbers beside them, and what each call leaves in its slices.

use second::calls::{apply, fresh, join, learn, take, Answer, Lent};
use second::session::{session_take, start, Session};
use second::text::{read, run, write, Reading};

fn refused(code: u64, place: u64) -> Answer {
    Answer { code, place, ..Answer::default() }
}

/// Two relays: 3 to 0 is booked, with its sheet; the words after the counts are rubbish.
const BOOK: [u32; 2] = [3072, 900];
const SHEET: [u32; 6] = [1, 2, 1048577, 1048578, 900, 901];

/// A take that is refused: the counts given come back and no slice changes.
fn take_refused(code: u64, numbers: [u32; 3], counts: [u64; 2], book: &[u32], sheet: &[u32]) {
    let ([n, state, successor], [book_count, sheet_count]) = (numbers, counts);
    let (mut book_after, mut sheet_after) = (book.to_vec(), sheet.to_vec());
    let answer =
        take(n, state, successor, book_count, sheet_count, &mut book_after, &mut sheet_after);
    assert_eq!(answer, Answer { book_count, sheet_count, ..refused(code, 0) });
    assert_eq!((&book_after[..], &sheet_after[..]), (book, sheet));
}

#[test]
fn take_judges_in_order() {
    let absurd = u64::MAX;
    let bad_book = [3072, 4096, 900];
    let bad_sheet = [2, 1, 1048577];
    // Each line mends the first fault of the line before it.
    take_refused(2, [0, 9, 9], [absurd, absurd], &bad_book, &bad_sheet);
    take_refused(2, [11, 9, 9], [absurd, absurd], &bad_book, &bad_sheet);
    take_refused(2, [u32::MAX, 9, 9], [3, 3], &bad_book, &bad_sheet);
    take_refused(3, [2, 9, 9], [absurd, absurd], &bad_book, &bad_sheet);
    take_refused(3, [2, 9, 9], [4, 3], &bad_book, &bad_sheet);
    take_refused(3, [2, 9, 9], [3, 4], &bad_book, &bad_sheet);
    take_refused(4, [2, 9, 9], [3, 3], &bad_book, &bad_sheet);
    take_refused(5, [2, 9, 9], [1, 3], &bad_book, &bad_sheet);
    take_refused(6, [2, 9, 0], [1, 4], &BOOK[..1], &SHEET[..4]);
    take_refused(6, [2, 3, 9], [1, 4], &BOOK[..1], &SHEET[..4]);
    take_refused(1, [2, 3, 0], [1, 4], &BOOK[..1], &SHEET[..4]);
    take_refused(7, [2, 3, 1], [1, 4], &BOOK[..1], &SHEET[..4]);
    take_refused(8, [2, 0, 0], [1, 4], &BOOK[..1], &SHEET[..4]);
    take_refused(9, [2, 3, 0], [0, 2], &BOOK, &[0, 1048576, 7]);
}

#[test]
fn code_1_clears_nothing() {
    take_refused(1, [2, 3, 0], [1, 4], &BOOK, &SHEET);
}

#[test]
fn a_take_that_changes_no_head_still_clears_both_tails() {
    let (mut book, mut sheet) = ([5, 6, 7], [0, 8, 9]);
    let answer = take(1, 1, 1, 0, 1, &mut book, &mut sheet);
    let done = Answer { book_count: 1, sheet_count: 1, ..Answer::default() };
    assert_eq!((answer, book, sheet), (done, [1025, 0, 0], [0, 0, 0]));
}

#[test]
fn a_take_books_between_others() {
    let (mut book, mut sheet) = ([1, 3073, 7], [9, 9]);
    let answer = take(2, 1, 3, 2, 0, &mut book, &mut sheet);
    let done = Answer { book_count: 3, ..Answer::default() };
    assert_eq!((answer, book, sheet), (done, [1, 1027, 3073], [0, 0]));
}

#[test]
fn take_needs_room_for_the_larger_of_the_old_and_new_counts() {
    // Old sheet of four rules, new sheet of two: nothing more than the four is needed.
    let (mut book, mut sheet) = (BOOK, [1, 2, 1048577, 1048578]);
    let answer = take(2, 0, 0, 1, 4, &mut book, &mut sheet);
    assert_eq!((answer.code, answer.book_count), (0, 2));
    assert_eq!(answer.sheet_count, 4 - answer.struck + answer.added);
}

#[test]
fn fresh_and_start_judge_in_order() {
    for (n, code) in [(0, 2), (11, 2), (u32::MAX, 2), (3, 9), (10, 9)] {
        let mut sheet = [7, 8];
        assert_eq!(fresh(n, &mut sheet), refused(code, 0));
        assert_eq!(start(n, &mut sheet), (refused(code, 0), Session::default()));
        assert_eq!(sheet, [7, 8]);
        assert_eq!(fresh(n, &mut []), refused(code, 0));
    }
    let mut sheet = [7, 8, 9];
    let done = Answer { sheet_count: 2, ..Answer::default() };
    assert_eq!(fresh(2, &mut sheet), done);
    assert_eq!(sheet, [0, 1048576, 0]);
    let session = Session { n: 2, sheet_count: 2, ..Session::default() };
    assert_eq!(start(2, &mut sheet), (done, session));
}

/// A learn that is refused: both slices are 0 afterwards.
fn learn_refused(code: u64, place: u64, n: u32, words: &[u32], rooms: [usize; 2]) {
    let (mut book, mut sheet) = (vec![7; rooms[0]], vec![8; rooms[1]]);
    assert_eq!(learn(n, words, &mut book, &mut sheet), refused(code, place));
    assert!(book.iter().chain(&sheet).all(|word| *word == 0));
}

#[test]
fn learn_judges_word_by_word() {
    let bad = u32::MAX;
    learn_refused(2, 0, 0, &[bad], [0, 0]);
    learn_refused(2, 0, 11, &[bad], [3, 3]);
    learn_refused(9, 0, 2, &[bad], [0, 1]);
    learn_refused(6, 0, 2, &[bad], [0, 2]);
    learn_refused(6, 1, 2, &[3, bad, 2], [1, 2]);
    // 7 at word 1 comes before 6 at word 2, and before 8 at word 1.
    learn_refused(7, 1, 2, &[3, 2, bad], [1, 2]);
    // 6 at word 1 comes before 7 at word 2.
    learn_refused(6, 1, 2, &[3, bad, 2], [2, 2]);
    learn_refused(8, 1, 2, &[3, 3072, bad], [1, 2]);
    // 8 comes before 9 at the same word; 9 at an earlier word comes before 8.
    learn_refused(8, 0, 2, &[3072], [0, 3]);
    learn_refused(9, 0, 2, &[3072, 0], [1, 3]);
    // A repeat is passed over, in a full book too.
    learn_refused(6, 3, 2, &[3, 3, 3, bad], [1, 2]);
}

#[test]
fn learn_refuses_by_the_words_so_far() {
    // 0 to 0 and 1 to 0 of one relay leave no rule, yet the fresh sheet needs room.
    learn_refused(9, 0, 1, &[0, 1024], [2, 0]);
    // All four states of two relays to 0 leave no rule, but the first of them needs four.
    learn_refused(9, 0, 2, &[0, 1024, 2048, 3072], [4, 3]);
    let (mut book, mut sheet) = ([7; 4], [7; 4]);
    let answer = learn(2, &[0, 1024, 2048, 3072], &mut book, &mut sheet);
    assert_eq!(
        (answer.code, answer.sheet_count, book, sheet),
        (0, 0, [0, 1024, 2048, 3072], [0; 4])
    );
    assert_eq!(answer.struck, answer.added + 2);
}

/// A join that is refused: counts 0, and no slice changes.
fn join_refused(code: u64, n: u32, a: Lent, b: Lent, rooms: [usize; 2]) {
    let (mut book, mut sheet) = (vec![7; rooms[0]], vec![8; rooms[1]]);
    assert_eq!(join(n, a, b, &mut book, &mut sheet), refused(code, 0));
    assert!(book.iter().all(|word| *word == 7) && sheet.iter().all(|word| *word == 8));
}

#[test]
fn join_judges_in_order() {
    let good = Lent { book_count: 1, sheet_count: 4, book: &BOOK, sheet: &SHEET };
    let book_above = Lent { book_count: 3, ..good };
    let sheet_above = Lent { sheet_count: 7, ..good };
    let bad_book = Lent { book_count: 2, ..good };
    let bad_sheet = Lent { sheet_count: 6, ..good };
    let other = Lent { book: &[3073], ..good };
    let more = Lent { book: &[0], ..good };
    let bad_both = Lent { book_count: 2, sheet_count: 6, ..good };
    let above_both = Lent { book_count: u64::MAX, sheet_count: u64::MAX, ..good };
    for (one, two) in [(0, 1), (1, 0)] {
        let check = |code, n, mut pair: [Lent; 2], rooms| {
            pair.swap(one, two);
            join_refused(code, n, pair[0], pair[1], rooms);
            pair.swap(0, 1);
            join_refused(code, n, pair[0], pair[1], rooms);
        };
        check(2, 0, [above_both, bad_both], [0, 0]);
        check(2, u32::MAX, [above_both, bad_both], [0, 0]);
        check(3, 2, [above_both, bad_both], [0, 0]);
        check(3, 2, [book_above, bad_both], [0, 0]);
        check(3, 2, [sheet_above, bad_both], [0, 0]);
        check(4, 2, [bad_sheet, bad_book], [0, 0]);
        check(4, 2, [bad_both, other], [0, 0]);
        check(5, 2, [bad_sheet, other], [0, 0]);
        check(7, 2, [good, other], [0, 0]);
        check(8, 2, [good, more], [1, 0]);
        check(9, 2, [good, more], [2, 3]);
    }
    let (mut book, mut sheet) = ([7; 3], [8; 5]);
    let done = Answer { book_count: 2, sheet_count: 4, ..Answer::default() };
    assert_eq!(join(2, good, more, &mut book, &mut sheet), done);
    assert_eq!((book, sheet), ([0, 3072, 0], [1, 2, 1048577, 1048578, 0]));
}

#[test]
fn apply_judges_in_order() {
    assert_eq!(apply(0, 9, 9, &[9]), (refused(2, 0), 0));
    assert_eq!(apply(u32::MAX, 9, 9, &[9]), (refused(2, 0), 0));
    assert_eq!(apply(2, 9, u64::MAX, &[9]), (refused(3, 0), 0));
    assert_eq!(apply(2, 9, 2, &[9]), (refused(3, 0), 0));
    assert_eq!(apply(2, 9, 1, &[9]), (refused(5, 0), 0));
    assert_eq!(apply(2, 4, 0, &[9]), (refused(6, 0), 0));
    assert_eq!(apply(2, 3, 0, &[9]), (refused(0, 0), 0));
    assert_eq!(apply(2, 3, 2, &[0, 1048577]), (refused(0, 0), 1));
    assert_eq!(apply(2, 2, 2, &[0, 1048577]), (refused(0, 0), 3));
}

#[test]
fn write_judges_in_order() {
    let check = |code, n, count, sheet: &[u32], room: usize| {
        let mut out = vec![b'?'; room];
        assert_eq!(write(n, count, sheet, b"", b"", &mut out), (refused(code, 0), 0));
        assert!(out.iter().all(|byte| *byte == b'?'));
    };
    check(2, 0, 9, &[9], 0);
    check(2, 11, 9, &[9], 0);
    check(3, 2, u64::MAX, &[9], 0);
    check(3, 2, 2, &[9], 0);
    check(5, 2, 1, &[9], 0);
    let text = ".i 2\n.o 2\n.type f\n.p 1\n-0 10\n.e\n";
    check(12, 2, 1, &[2], text.len() - 1);
    check(12, 2, 1, &[2], 0);
    let mut out = vec![b'?'; text.len()];
    assert_eq!(write(2, 1, &[2], b"", b"", &mut out), (refused(0, 0), text.len() as u64));
    assert_eq!(out, text.as_bytes());
}

/// A session's take that is refused changes neither the session nor a slice.
fn session_refused(code: u64, session: Session, transition: [u32; 2], book: &[u32], sheet: &[u32]) {
    let (mut book_after, mut sheet_after) = (book.to_vec(), sheet.to_vec());
    let [state, successor] = transition;
    let found = session_take(session, state, successor, &mut book_after, &mut sheet_after);
    let Session { book_count, sheet_count, .. } = session;
    let answer = Answer { book_count, sheet_count, ..refused(code, 0) };
    assert_eq!(found, (answer, session));
    assert_eq!((&book_after[..], &sheet_after[..]), (book, sheet));
}

#[test]
fn a_session_judges_in_order() {
    let absurd =
        Session { n: 11, book_count: u64::MAX, sheet_count: u64::MAX, struck: u64::MAX, added: 0 };
    let good = Session { n: 2, book_count: 1, sheet_count: 4, struck: 2, added: 4 };
    let bad_book = [4096];
    session_refused(2, absurd, [9, 9], &bad_book, &SHEET);
    session_refused(2, Session { n: 0, ..good }, [9, 9], &bad_book, &SHEET);
    session_refused(3, Session { n: 2, ..absurd }, [9, 9], &bad_book, &SHEET);
    session_refused(3, Session { struck: 3, ..good }, [9, 9], &bad_book, &SHEET);
    session_refused(3, Session { added: 5, ..good }, [9, 9], &bad_book, &SHEET);
    session_refused(3, Session { book_count: 2, ..good }, [9, 9], &bad_book, &SHEET);
    session_refused(3, Session { sheet_count: 7, added: 7, ..good }, [9, 9], &bad_book, &SHEET);
    session_refused(4, good, [9, 9], &bad_book, &SHEET);
    session_refused(5, Session { sheet_count: 6, struck: 0, ..good }, [9, 9], &BOOK, &SHEET);
    session_refused(6, good, [9, 9], &BOOK, &SHEET);
    session_refused(1, good, [3, 0], &BOOK, &SHEET);
    session_refused(7, good, [3, 1], &BOOK, &SHEET);
    session_refused(8, good, [0, 0], &BOOK[..1], &SHEET);
    session_refused(
        9,
        Session { n: 2, sheet_count: 2, ..Session::default() },
        [3, 0],
        &BOOK,
        &[0, 1048576, 5],
    );
}

#[test]
fn totals_at_their_edge() {
    let most = 1_000_000_000;
    let at = Session { n: 2, book_count: 1, sheet_count: 4, struck: most - 2, added: most };
    let (mut book, mut sheet) = (BOOK, SHEET);
    let (answer, after) = session_take(at, 0, 0, &mut book, &mut sheet);
    assert_eq!(answer.code, 0);
    assert_eq!((after.struck, after.added), (at.struck + answer.struck, most + answer.added));
    assert!(after.added > most, "exactly the most may still take, and leaves more");
    let transition = [1, 0];
    session_refused(3, after, transition, &book, &sheet);
    // Sums that would agree only modulo 2^64.
    let wrapping = Session { struck: u64::MAX, added: 1, ..at };
    session_refused(3, wrapping, transition, &BOOK, &SHEET);
    let wrapping = Session { struck: 0, added: u64::MAX, sheet_count: 1, ..at };
    session_refused(3, wrapping, transition, &BOOK, &SHEET);
    let wrapping = Session { struck: 3, added: 0, sheet_count: u64::MAX, ..at };
    session_refused(3, wrapping, transition, &BOOK, &SHEET);
}

#[test]
fn reading_judges_the_layout_before_the_room() {
    let mut list = [7; 3];
    let reading = read(b".i 2\n.o 2\n.type fr\n-- 01\n.e", &mut list);
    assert_eq!((reading, list), (Reading { code: 8, ..Reading::default() }, [0; 3]));
    list = [7; 3];
    let reading = read(b".i 2\n.o 2\n.type fr\n-- 01\n", &mut list);
    assert_eq!((reading, list), (Reading { code: 11, place: 5, n: 0, count: 0 }, [0; 3]));
    list = [7; 3];
    let reading = read(b".i 2\n.o 2\n-- 01\n.e", &mut list);
    assert_eq!((reading, list), (Reading { code: 11, place: 3, n: 0, count: 0 }, [0; 3]));
    list = [7; 3];
    let reading = read(b".p 4\n.i 2\n.o 2\n.type fr\n-- 01\n.e", &mut list);
    assert_eq!((reading, list), (Reading { code: 11, place: 1, n: 0, count: 0 }, [0; 3]));
    let done = Reading { n: 2, ..Reading::default() };
    assert_eq!(read(b".i 2\n.o 2\n.type fr\n.e", &mut []), done);
}

/// What run prints, and the three word slices after it; each slice is full of 7 before.
fn ran(input: &[u8], rooms: [usize; 4]) -> (String, [Vec<u32>; 3]) {
    let [list, book, sheet, bytes] = rooms;
    let (mut list, mut book, mut sheet) = (vec![7; list], vec![7; book], vec![7; sheet]);
    let mut out = vec![b'?'; bytes];
    let length = run(input, &mut list, &mut book, &mut sheet, &mut out) as usize;
    assert!(out[length..].iter().all(|byte| *byte == b'?'));
    (String::from_utf8(out[..length].to_vec()).unwrap(), [list, book, sheet])
}

#[test]
fn run_leaves_what_the_inner_calls_leave() {
    let text = b".i 1\n.o 1\n.type fr\n1 0\n.e\n";
    let sheet = ".i 1\n.o 1\n.type f\n.p 1\n0 1\n.e\n";
    let done = |printed: &str, slices: [&[u32]; 3]| {
        (printed.to_string(), slices.map(|slice| slice.to_vec()))
    };
    assert_eq!(ran(text, [2, 2, 2, 99]), done(sheet, [&[1024, 0], &[1024, 0], &[1, 0]]));
    assert_eq!(
        ran(text, [2, 2, 2, sheet.len() - 1]),
        done("refused 12 at 0\n", [&[1024, 0], &[1024, 0], &[1, 0]])
    );
    assert_eq!(ran(text, [2, 2, 0, 99]), done("refused 9 at 0\n", [&[1024, 0], &[0, 0], &[]]));
    assert_eq!(ran(text, [2, 0, 2, 99]), done("refused 8 at 0\n", [&[1024, 0], &[], &[0, 0]]));
    assert_eq!(ran(text, [0, 2, 2, 99]), done("refused 8 at 0\n", [&[], &[7, 7], &[7, 7]]));
    assert_eq!(ran(b"x", [2, 2, 2, 99]), done("refused 11 at 1\n", [&[0, 0], &[7, 7], &[7, 7]]));
    assert_eq!(ran(b"x", [2, 2, 2, 16]), done("refused 11 at 1\n", [&[0, 0], &[7, 7], &[7, 7]]));
    assert_eq!(ran(b"x", [2, 2, 2, 15]), done("", [&[0, 0], &[7, 7], &[7, 7]]));
    let conflict = b".i 1\n.o 1\n.type fr\n1 0\n- 1\n.e\n";
    assert_eq!(
        ran(conflict, [4, 2, 2, 99]),
        done("refused 7 at 2\n", [&[1024, 1, 1025, 0], &[0, 0], &[0, 0]])
    );
}

#[test]
fn run_judges_the_length_first() {
    let long = vec![b'x'; 24_577];
    let untouched = [vec![7; 2], vec![7; 2], vec![7; 2]];
    assert_eq!(ran(&long, [2, 2, 2, 99]), ("refused 13 at 0\n".to_string(), untouched));
    let (printed, _) = ran(&long[1..], [2, 2, 2, 99]);
    assert_eq!(printed, "refused 11 at 1\n");
}
