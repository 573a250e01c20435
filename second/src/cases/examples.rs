//! The examples of document 01 as requests, names, texts with no type line, and sheets that come
//! back.

use super::requests::made;
use crate::desk::{
    Request, APPLY, FRESH, JOIN, LEARN, LOOKUP, READ, READ_SHEET, RUN, SESSION_START, SESSION_TAKE,
    TAKE, WRITE,
};
use crate::text::{MOST_INPUT, PROGRAM_BYTES, PROGRAM_WORDS};

const RECORDING: &str = ".i 3\n.o 3\n.type fr\n111 110\n110 100\n100 000\n000 001\n001 001\n\
                         011 101\n101 010\n010 101\n.e\n";

const NAMED: &str = ".i 3\n.o 3\n.ilb PUMP Valve_2 f\n.ob PUMP Valve_2 f\n.type fr\n111 110\n.e\n";

/// With names, and accepted but for the type line that it lacks.
const UNTYPED: &str = ".i 3\n.o 3\n.ilb PUMP Valve_2 f\n.ob PUMP Valve_2 f\n111 110\n.e\n";

/// What the recording above is learned to.
const SHEET: &str = ".i 3\n.o 3\n.type f\n.p 3\n-1- 100\n1-1 010\n0-- 001\n.e\n";

/// The same rules otherwise: another order, blanks, comments, and names.
const NAMED_SHEET: &str = "# site 4\n.type f # type\n.ob x y z\n.o 3\n\n\t.ilb x  y z\n.i 3\n\
                           0-- \t001\n#\n -1- 100#a\n1-1 010\n.end\n\n";

/// What the output slices hold before a call.
const RUBBISH: u64 = 77;

/// K1 to K12, the other examples, the recording, the text's edges, the type line, names, and
/// sheets.
pub fn examples() -> Vec<Request> {
    let texts = [texts(), texts_about_the_type()].concat();
    let read_and_run = texts.iter().flat_map(|text| read_and_run(text)).collect();
    let names = [name_examples(), name_examples_of_sheets()].concat();
    [bench_examples(), size_examples(), read_and_run, names, sheet_examples()].concat()
}

fn rubbish(room: usize) -> Vec<u64> {
    vec![RUBBISH; room]
}

fn word(state: u64, successor: u64) -> u64 {
    state * 1_024 + successor
}

fn learn(n: u64, words: &[u64], book_room: usize, sheet_room: usize) -> Request {
    made(LEARN, vec![n], vec![words.to_vec(), rubbish(book_room), rubbish(sheet_room)])
}

fn bench_examples() -> Vec<Request> {
    let panel = [(7, 3), (3, 1), (1, 0), (0, 4), (4, 4), (6, 5), (5, 2), (2, 5)];
    let recording: Vec<u64> = panel.iter().map(|(i, j)| word(*i, *j)).collect();
    let k8 = [word(7, 3), word(3, 1)];
    let k9 = vec![2048, 1053696, 2097153];
    vec![
        learn(1, &[], 1, 3),
        learn(1, &[word(0, 0)], 2, 3),
        learn(1, &[word(0, 0), word(1, 0)], 2, 1),
        made(SESSION_TAKE, vec![1, 0, 1, 0, 0, 0, 0], vec![rubbish(2), vec![0]]),
        made(SESSION_TAKE, vec![1, 1, 1, 1, 1, 1, 0], vec![vec![0, RUBBISH], vec![1024]]),
        learn(1, &[word(0, 0), word(0, 1)], 2, 3),
        learn(1, &[word(0, 1), word(0, 1)], 1, 1),
        learn(2, &[word(3, 0)], 1, 4),
        learn(2, &[word(3, 0)], 1, 3),
        learn(3, &[word(7, 3)], 2, 8),
        learn(3, &k8, 2, 6),
        learn(3, &k8, 2, 5),
        made(
            TAKE,
            vec![3, 3, 1, 1, 5],
            vec![vec![word(7, 3), RUBBISH], vec![0, 1048576, 2097153, 2097154, 2097156, RUBBISH]],
        ),
        learn(3, &recording, 8, 40),
        // K9's largest sheet on the way has seven rules.
        learn(3, &recording, 8, 7),
        learn(3, &recording, 8, 6),
        made(WRITE, vec![3, 3], vec![k9.clone(), vec![], vec![], rubbish(60)]),
        made(APPLY, vec![3, 5, 3], vec![k9]),
        made(
            JOIN,
            vec![1, 1, 1, 1, 1],
            vec![vec![0], vec![1024], vec![1024], vec![1], rubbish(3), rubbish(2)],
        ),
        made(APPLY, vec![1, 0, 2], vec![vec![0, 1024]]),
        made(TAKE, vec![1, 0, 0, 0, 2], vec![rubbish(2), vec![0, 1024]]),
    ]
}

fn size_examples() -> Vec<Request> {
    let mut requests = Vec::new();
    for n in [0, 1, 10, 11, u64::from(u32::MAX)] {
        let empty = Vec::new;
        requests.extend([
            made(FRESH, vec![n], vec![rubbish(12)]),
            made(SESSION_START, vec![n], vec![rubbish(12)]),
            learn(n, &[], 2, 12),
            made(TAKE, vec![n, 0, 0, 0, 0], vec![rubbish(2), rubbish(2)]),
            made(SESSION_TAKE, vec![n, 0, 0, n, 0, 0, 0], vec![rubbish(2), rubbish(2)]),
            made(
                JOIN,
                vec![n, 0, 0, 0, 0],
                vec![empty(), empty(), empty(), empty(), rubbish(2), rubbish(2)],
            ),
            made(APPLY, vec![n, 0, 0], vec![empty()]),
            made(WRITE, vec![n, 0], vec![empty(), empty(), empty(), rubbish(40)]),
        ]);
    }
    requests.extend([
        made(APPLY, vec![1, 2, 0], vec![rubbish(1)]),
        made(TAKE, vec![1, 2, 0, 0, 0], vec![rubbish(1), rubbish(1)]),
        made(TAKE, vec![1, 0, 2, 0, 0], vec![rubbish(1), rubbish(1)]),
        learn(1, &[0, word(2, 0)], 2, 2),
    ]);
    requests
}

fn read_and_run(text: &str) -> [Request; 2] {
    let words = || rubbish(PROGRAM_WORDS);
    let slices = vec![bytes(text), words(), words(), words(), rubbish(PROGRAM_BYTES)];
    [made(READ, vec![], vec![bytes(text), rubbish(10)]), made(RUN, vec![], slices)]
}

fn texts() -> Vec<String> {
    let long = "#".repeat(MOST_INPUT - RECORDING.len());
    let named = "#".repeat(MOST_INPUT - NAMED.len());
    vec![
        RECORDING.to_string(),
        String::new(),
        "\n".to_string(),
        format!("{RECORDING}{long}"),
        format!("{RECORDING}{long}#"),
        ".i 2\n.p 0\n.o 2\n.type fr\n01 10\n.e\n".to_string(),
        ".i 2\n.p 0\n.o 2\n.type fr\n01 10\n".to_string(),
        ".i 2\n.p 0\n.o 2\n.type fr\n01 10\nx\n.e\n".to_string(),
        ".i 2\n.o 2\n.type fr\n-- 01\n.e".to_string(),
        ".i 2\n.o 3\n.type fr\n.e".to_string(),
        ".e".to_string(),
        NAMED.to_string(),
        format!("{NAMED}{named}"),
        ".i 2\n.o 2\n.type fr\n.ilb a b\n01 10\n.e\n".to_string(),
        ".i 2\n.o 2\n.type fr\n.ob a b\n.e\n".to_string(),
        ".ilb a b\n.ob a c\n.i 2\n.o 2\n.type fr\n.e\n".to_string(),
        ".ilb a b\n.i 3\n.o 3\n.ob a b\n.type fr\n.e\n".to_string(),
        ".i 10\n.o 10\n.type fr\n---------- 1111111111\n---------- 1111111111\n.e\n".to_string(),
    ]
}

/// The type line first, between and last of the headers; then missing, late, twice, or of another
/// type.
fn texts_about_the_type() -> Vec<String> {
    let texts = [
        ".type fr\n.i 2\n.o 2\n01 10\n.e\n",
        ".i 2\n \t.type\tfr#x\n.o 2\n01 10\n.e\n",
        ".i 2\n.o 2\n.p 0\n\n.type fr\n.e\n",
        ".i 2\n.o 2\n01 10\n.e\n",
        ".i 2\n.o 2\n\n# x\n-- 10\n-- 10\n-- 10\n.e\n",
        ".i 2\n.o 2\n.e\n",
        ".i 2\n.o 2\n.p 0\n.end",
        ".i 2\n.o 2\n",
        ".i 2\n.o 2\n# .type fr\n01 10\n.e\n",
        ".p 7\n.i 2\n.o 2\n01 10\n.e\n",
        ".p 7\n.i 2\n.o 2\n.e\n",
        ".i 2\n.o 2\n01 10\n.type fr\n.e\n",
        ".i 2\n.o 2\n.e\n.type fr\n",
        ".i 2\n.o 2\n.type fr\n.type fr\n01 10\n.e\n",
        ".i 2\n.o 2\n.type f\n01 10\n.e\n",
        ".i 2\n.o 2\n.type fd\n.e\n",
        ".i 2\n.o 2\n.ilb a b\n01 10\n.e\n",
        UNTYPED,
    ];
    texts.map(str::to_string).to_vec()
}

fn bytes(text: &str) -> Vec<u64> {
    text.bytes().map(u64::from).collect()
}

/// Lookups and writes beside every pair of some texts: with names, without, and bad, some of these
/// for want of the type line alone.
fn name_examples() -> Vec<Request> {
    let texts = [
        NAMED,
        ".i 5\n.o 5\n.ob 0 1 2 3 4\n.type fr\n.ilb 0 1 2 3 4 # five\n.e",
        RECORDING,
        "",
        ".p 1\n.i 3\n.o 3\n.ilb a b c\n.ob a b c\n.type fr\n.e\n",
        ".i 3\n.o 3\n.ilb a b c\n.type fr\n.e\n",
        UNTYPED,
        ".i 3\n.o 3\n.e\n",
        ".i 3\n.o 3\n.ilb a b c\n.ob a b c\n.type f\n.e\n",
    ];
    beside_every_pair(&texts)
}

/// The same with sheets among them: with names, without, no good ones, and bad for both readers.
fn name_examples_of_sheets() -> Vec<Request> {
    let texts = [
        NAMED,
        RECORDING,
        NAMED_SHEET,
        SHEET,
        ".i 2\n.o 2\n.ilb one_rule twice\n.ob one_rule twice\n.type f\n01 10\n01 10\n.e\n",
        ".i 2\n.o 2\n.type f\n-- 10\n01 10\n.e\n",
        ".p 2\n.i 2\n.o 2\n.ilb a b\n.ob a b\n.type f\n01 10\n.e\n",
        ".i 2\n.o 2\n.ilb a b\n.ob a b\n.type f\n01 11\n.e\n",
        ".i 2\n.o 2\n.ilb a b\n.ob a b\n.type f\n.type fr\n01 10\n.e\n",
    ];
    beside_every_pair(&texts)
}

fn beside_every_pair(texts: &[&str]) -> Vec<Request> {
    let mut requests = Vec::new();
    for panel in texts {
        for maker in texts {
            for column in [0, 2, 3, 4, 5, 10, 1 << 32, u64::MAX] {
                let slices = vec![bytes(panel), bytes(maker)];
                requests.push(made(LOOKUP, vec![column], slices));
            }
            for n in [1, 3, 4, 5, 6] {
                let slices = vec![vec![], bytes(panel), bytes(maker), rubbish(60)];
                requests.push(made(WRITE, vec![n, 0], slices));
            }
        }
    }
    requests
}

/// Every sheet text by both readers and the program, in exactly the room of the longest, one word
/// less, and more.
fn sheet_examples() -> Vec<Request> {
    let long = "#".repeat(MOST_INPUT + 1);
    let texts = [sheet_texts(), vec![format!("{NAMED_SHEET}{long}")]].concat();
    let read_sheet =
        |text: &String, room: usize| made(READ_SHEET, vec![], vec![bytes(text), rubbish(room)]);
    let of_text = |text: &String| {
        let rooms = [0, 2, 3, 10].map(|room| read_sheet(text, room));
        [rooms.to_vec(), read_and_run(text).to_vec()].concat()
    };
    texts.iter().flat_map(of_text).collect()
}

fn sheet_texts() -> Vec<String> {
    let texts = [
        SHEET,
        NAMED_SHEET,
        RECORDING,
        "",
        ".type f\n.o 1\n.i 1\n.e",
        ".i 1\n.o 1\n.type f\n.p 2\n1 1\n0 1\n.e\n",
        // A row twice; one body within another, of one head and of two; the number of rows.
        ".i 2\n.o 2\n.type f\n.p 2\n01 10\n01 10\n.e\n",
        ".i 2\n.o 2\n.type f\n01 10\n10 01\n-1 10\n.e\n",
        ".i 2\n.o 2\n.type f\n01 10\n-1 01\n.e\n",
        ".i 2\n.o 2\n.type f\n.p 1\n01 10\n01 10\n.e\n",
        // Two heads, none, a dash; the type line missing, late, twice, or the other.
        ".i 2\n.o 2\n.type f\n01 10\n01 11\n.e\n",
        ".i 2\n.o 2\n.type f\n01 00\n.e\n",
        ".i 2\n.o 2\n.type f\n01 1-\n.e\n",
        ".i 2\n.o 2\n01 10\n.e\n",
        ".i 2\n.o 2\n.e\n",
        ".i 2\n.o 2\n01 10\n.type f\n.e\n",
        ".i 2\n.type f\n.o 2\n.type f\n01 10\n.e\n",
        ".i 2\n.type f\n.o 2\n.type fr\n01 10\n.e\n",
        ".i 2\n.o 2\n.type fr\n01 10\n.e\n",
        ".i 2\n.o 2\n.type f\n01 10\n",
        ".i 2\n.o 2\n.type f\n.ilb a b\n01 10\n.e\n",
        ".i 2\n.o 2\n.type f\n.ilb a b\n.ob b a\n01 10\n.e\n",
    ];
    texts.map(str::to_string).to_vec()
}
