//! K1 to K12 and the other examples of document 01.

use second::calls::{apply, fresh, join, learn, take, Answer, Lent};
use second::session::{session_take, start, Session};
use second::text::{read, rulesheet, write, Reading};

const RECORDING: &str = "\
.i 3
.o 3
.type fr
111 110
110 100
100 000
000 001
001 001
011 101
101 010
010 101
.e
";

const SHEET: &str = "\
.i 3
.o 3
.type f
.p 3
-1- 100
1-1 010
0-- 001
.e
";

fn word(state: u32, successor: u32) -> u32 {
    state * 1024 + successor
}

/// Learns in ample room full of rubbish; the answer and what the counts say is in use. All words
/// beyond the counts are 0.
fn learned(n: u32, words: &[u32]) -> (Answer, Vec<u32>, Vec<u32>) {
    let (mut book, mut sheet) = ([77; 40], [77; 400]);
    let answer = learn(n, words, &mut book, &mut sheet);
    let (used, rest) = sheet.split_at(answer.sheet_count as usize);
    assert!(rest.iter().all(|word| *word == 0));
    let (booked, unused) = book.split_at(answer.book_count as usize);
    assert!(unused.iter().all(|word| *word == 0));
    (answer, booked.to_vec(), used.to_vec())
}

fn done(book_count: u64, sheet_count: u64, struck: u64, added: u64) -> Answer {
    Answer { code: 0, place: 0, book_count, sheet_count, struck, added }
}

fn refused(code: u64, place: u64) -> Answer {
    Answer { code, place, ..Answer::default() }
}

#[test]
fn k1_no_words() {
    assert_eq!(learned(1, &[]), (done(0, 1, 0, 0), vec![], vec![0]));
}

#[test]
fn k2_a_rule_that_covers_nothing_recorded() {
    assert_eq!(learned(1, &[word(0, 0)]), (done(1, 1, 1, 1), vec![0], vec![1024]));
}

#[test]
fn k3_all_rules_struck() {
    let words = [word(0, 0), word(1, 0)];
    assert_eq!(learned(1, &words), (done(2, 0, 2, 1), vec![0, 1024], vec![]));
    // The same as totals of a session; the second take by itself reports 1 and 0.
    let (mut book, mut sheet) = ([9; 2], [9; 1]);
    let (answer, session) = start(1, &mut sheet);
    assert_eq!((answer, sheet), (done(0, 1, 0, 0), [0]));
    let (answer, session) = session_take(session, 0, 0, &mut book, &mut sheet);
    assert_eq!((answer, book, sheet), (done(1, 1, 1, 1), [0, 0], [1024]));
    let (answer, session) = session_take(session, 1, 0, &mut book, &mut sheet);
    assert_eq!((answer, book, sheet), (done(2, 0, 1, 0), [0, 1024], [0]));
    let totals = Session { n: 1, book_count: 2, sheet_count: 0, struck: 2, added: 1 };
    assert_eq!(session, totals);
}

#[test]
fn k4_two_successors() {
    assert_eq!(learned(1, &[word(0, 0), word(0, 1)]).0, refused(7, 1));
}

#[test]
fn k5_a_repeat() {
    let (answer, book, sheet) = learned(1, &[word(0, 1), word(0, 1)]);
    assert_eq!((answer, book, sheet), (done(1, 1, 0, 0), vec![1], vec![0]));
    // A repeat passes in a full book.
    let mut full = [9];
    assert_eq!(learn(1, &[1, 1], &mut full, &mut [9]), done(1, 1, 0, 0));
    assert_eq!(full, [1]);
}

#[test]
fn k6_rooms_of_four_and_three() {
    let (mut book, mut sheet) = ([9; 1], [9; 4]);
    assert_eq!(learn(2, &[word(3, 0)], &mut book, &mut sheet), done(1, 4, 2, 4));
    assert_eq!(sheet, [1, 2, 1048577, 1048578]);
    let mut short = [9; 3];
    assert_eq!(learn(2, &[word(3, 0)], &mut book, &mut short), refused(9, 0));
    assert_eq!((book, short), ([0], [0, 0, 0]));
}

#[test]
fn k7_all_specializations() {
    let sheet = vec![0, 1048576, 2097153, 2097154, 2097156];
    assert_eq!(learned(3, &[word(7, 3)]), (done(1, 5, 1, 3), vec![7171], sheet));
}

#[test]
fn k8_rooms_of_six_and_five() {
    let words = [word(7, 3), word(3, 1)];
    let (mut book, mut sheet) = ([9; 2], [9; 6]);
    let answer = learn(3, &words, &mut book, &mut sheet);
    assert_eq!((answer.code, answer.book_count, answer.sheet_count), (0, 2, 6));
    assert_eq!(answer.sheet_count, 3 - answer.struck + answer.added);
    assert_eq!(sheet, [0, 1048577, 1048578, 1052672, 2097153, 2097154]);
    let mut short = [9; 5];
    assert_eq!(learn(3, &words, &mut book, &mut short), refused(9, 1));
    assert_eq!((book, short), ([0; 2], [0; 5]));
    // The same by takes, in room 6.
    let mut by_takes = [9; 6];
    assert_eq!(fresh(3, &mut by_takes), done(0, 3, 0, 0));
    assert_eq!(take(3, 7, 3, 0, 3, &mut book, &mut by_takes), done(1, 5, 1, 3));
    assert_eq!(take(3, 3, 1, 1, 5, &mut book, &mut by_takes), done(2, 6, 2, 3));
    assert_eq!(by_takes, sheet);
}

fn words_of_the_recording() -> Vec<u32> {
    let mut list = [9; 10];
    let reading = read(RECORDING.as_bytes(), &mut list);
    assert_eq!(reading, Reading { code: 0, place: 0, n: 3, count: 8 });
    assert_eq!(list[8..], [0, 0]);
    list[..8].to_vec()
}

#[test]
fn k9_the_recording() {
    let words = words_of_the_recording();
    assert_eq!(words[0], word(7, 3), "the leftmost column is relay 0");
    assert_eq!(words[2], word(1, 0));
    let (answer, book, sheet) = learned(3, &words);
    assert_eq!((answer.code, book.len()), (0, 8));
    assert_eq!(sheet, [2048, 1053696, 2097153]);
    let mut out = [b'?'; 60];
    assert_eq!(write(3, 3, &sheet, b"", b"", &mut out), (done(0, 0, 0, 0), SHEET.len() as u64));
    assert_eq!(&out[..SHEET.len()], SHEET.as_bytes());
    assert!(out[SHEET.len()..].iter().all(|byte| *byte == b'?'));
}

#[test]
fn k9_through_the_program() {
    assert_eq!(String::from_utf8_lossy(&rulesheet(RECORDING.as_bytes())), SHEET);
}

#[test]
fn k10_k9_applied_to_5() {
    assert_eq!(apply(3, 5, 3, &[2048, 1053696, 2097153]), (done(0, 0, 0, 0), 2));
}

#[test]
fn k11_a_join() {
    let (a, b) = (learned(1, &[word(0, 0)]), learned(1, &[word(1, 0)]));
    let (mut book, mut sheet) = ([9; 3], [9; 2]);
    let lent = |result: &'_ (Answer, Vec<u32>, Vec<u32>)| (result.1.clone(), result.2.clone());
    let ((a_book, a_sheet), (b_book, b_sheet)) = (lent(&a), lent(&b));
    let a = Lent { book_count: 1, sheet_count: 1, book: &a_book, sheet: &a_sheet };
    let b = Lent { book_count: 1, sheet_count: 1, book: &b_book, sheet: &b_sheet };
    assert_eq!(join(1, a, b, &mut book, &mut sheet), done(2, 0, 0, 0));
    assert_eq!((book, sheet), ([0, 1024, 0], [0, 0]));
}

#[test]
fn k12_no_good_sheet() {
    let mut sheet = [0, 1024];
    assert_eq!(apply(1, 0, 2, &sheet), (refused(5, 0), 0));
    assert_eq!(write(1, 2, &sheet, b"", b"", &mut [0; 99]), (refused(5, 0), 0));
    let answer = take(1, 0, 0, 0, 2, &mut [0; 3], &mut sheet);
    assert_eq!(answer, Answer { code: 5, sheet_count: 2, ..Answer::default() });
}

#[test]
fn sizes() {
    for (n, code) in [(0, 2), (1, 0), (10, 0), (11, 2), (u32::MAX, 2)] {
        let (mut book, mut sheet) = ([5; 12], [5; 12]);
        assert_eq!(fresh(n, &mut sheet).code, code);
        assert_eq!(start(n, &mut sheet).0.code, code);
        assert_eq!(learn(n, &[], &mut book, &mut sheet).code, code);
        let none = Lent { book_count: 0, sheet_count: 0, book: &[], sheet: &[] };
        assert_eq!(join(n, none, none, &mut book, &mut sheet).code, code);
        assert_eq!(apply(n, 0, 0, &[]).0.code, code);
        assert_eq!(write(n, 0, &[], b"", b"", &mut [0; 99]).0.code, code);
        assert_eq!(take(n, 0, 0, 0, 0, &mut book, &mut sheet).code, code);
    }
}

#[test]
fn state_2_at_n_1() {
    assert_eq!(apply(1, 2, 0, &[]), (refused(6, 0), 0));
    assert_eq!(take(1, 2, 0, 0, 0, &mut [0], &mut []).code, 6);
    assert_eq!(take(1, 0, 2, 0, 0, &mut [0], &mut []).code, 6);
    assert_eq!(learned(1, &[0, word(2, 0)]).0, refused(6, 1));
    assert_eq!(learned(1, &[0, word(0, 2)]).0, refused(6, 1));
}

#[test]
fn p_from_q_is_prime_and_p_from_p_and_q_is_not() {
    // Definitions decide over the example of document 000.
    let (_, _, sheet) = learned(3, &words_of_the_recording());
    assert!(sheet.contains(&2048) && !sheet.contains(&(2048 + 1024)));
}
