//! Requests and answers as bytes, the seeded cases, and the tally.

use second::cases::{examples, malformed, requests, requests_but};
use second::desk::{
    bytes_of, serve, shape_of, Request, LOOKUP, MOST_WORDS, READ, READ_SHEET, RUN, WRITE,
};
use second::tally::{outcome_of, printed_outcome, targets, Outcome, Source, Tally};
use second::text::{found, read, read_sheet, NoName};

/// The answers to a stream, and whether it ended between two requests.
fn served(stream: &[u8]) -> (Vec<u64>, bool) {
    let mut answers = Vec::new();
    let ended_well = serve(&mut &stream[..], &mut answers).unwrap();
    assert_eq!(answers.len() % 8, 0);
    let word = |bytes: &[u8]| u64::from_le_bytes(bytes.try_into().unwrap());
    (answers.chunks(8).map(word).collect(), ended_well)
}

fn answered(words: &[u64]) -> Vec<u64> {
    let (answers, ended_well) = served(&bytes_of(words));
    assert!(ended_well);
    answers
}

#[test]
fn one_request_of_each_call() {
    // fresh, n = 2, a sheet of three words
    assert_eq!(answered(&[1, 2, 3, 7, 7, 7]), [0, 0, 0, 2, 0, 0, 0, 1048576, 0]);
    // take, 0 to 0 of one relay into a fresh sheet
    assert_eq!(answered(&[2, 1, 0, 0, 0, 1, 2, 7, 7, 1, 0]), [0, 0, 1, 1, 1, 1, 0, 0, 1024]);
    // learn, the same word
    assert_eq!(answered(&[3, 1, 1, 0, 1, 7, 2, 7, 7]), [0, 0, 1, 1, 1, 1, 0, 1024, 0]);
    // join, K11
    assert_eq!(
        answered(&[4, 1, 1, 1, 1, 1, 1, 0, 1, 1024, 1, 1024, 1, 1, 2, 7, 7, 1, 7]),
        [0, 0, 2, 0, 0, 0, 0, 1024, 0]
    );
    // apply, K10
    assert_eq!(answered(&[5, 3, 5, 3, 3, 2048, 1053696, 2097153]), [0, 0, 0, 0, 0, 0, 2]);
    // session start, and its take
    assert_eq!(answered(&[6, 1, 1, 7]), [0, 0, 0, 1, 0, 0, 1, 0, 1, 0, 0, 0]);
    assert_eq!(
        answered(&[7, 1, 0, 1, 5, 5, 0, 0, 1, 7, 1, 0]),
        [0, 0, 1, 1, 1, 1, 1, 1, 1, 6, 6, 0, 1024]
    );
    // read, a text that is empty, and a list of one word
    assert_eq!(answered(&[8, 0, 1, 7]), [11, 1, 0, 0, 0]);
    // write, an empty sheet of one relay, in 30 bytes
    let text: Vec<u64> = b".i 1\n.o 1\n.type f\n.p 0\n.e\n".iter().map(|b| u64::from(*b)).collect();
    let mut request = vec![9, 1, 0, 0, 0, 0, 27];
    request.extend([63; 27]);
    let expected = [vec![0, 0, 0, 0, 0, 0, 26], text, vec![63]].concat();
    assert_eq!(answered(&request), expected);
    // run, an empty text, in 16 bytes
    let line: Vec<u64> = b"refused 11 at 1\n".iter().map(|b| u64::from(*b)).collect();
    let mut request = vec![10, 0, 1, 7, 1, 8, 1, 9, 16];
    request.extend([63; 16]);
    assert_eq!(answered(&request), [vec![16, 0, 8, 9], line].concat());
    // lookup, of empty texts
    assert_eq!(answered(&[11, 0, 0, 0]), [0, 0, 0]);
    // read sheet, an empty text, and a slice of one word
    assert_eq!(answered(&[12, 0, 1, 7]), [11, 1, 0, 0, 0]);
}

#[test]
fn requests_to_read_a_sheet() {
    let read_sheet = |text: &str, room: u64| {
        let words = vec![7; room as usize];
        answered(&[vec![12], lent(text), vec![room], words].concat())
    };
    let text = ".i 1\n.o 1\n.type f\n1 1\n0 1\n.e\n";
    assert_eq!(read_sheet(text, 3), [0, 0, 1, 2, 1, 1024, 0]);
    assert_eq!(read_sheet(text, 2), [0, 0, 1, 2, 1, 1024]);
    assert_eq!(read_sheet(text, 1), [8, 0, 0, 0, 0]);
    assert_eq!(read_sheet(&text.replace("0 1", "- 1"), 3), [5, 0, 0, 0, 0, 0, 0]);
    assert_eq!(read_sheet(&text.replace("0 1", "0 0"), 3), [11, 5, 0, 0, 0, 0, 0]);
    assert_eq!(read_sheet(PLAIN, 1), [11, 3, 0, 0, 0]);
    assert_eq!(read_sheet(&text.replace(".type", &".".repeat(30_000)), 0), [11, 3, 0, 0]);
    assert_eq!(read_sheet(&format!("{text}{}", "#".repeat(30_000)), 2), [0, 0, 1, 2, 1, 1024]);
}

/// The words of a lent text: its length, then its bytes.
fn lent(text: &str) -> Vec<u64> {
    [text.len() as u64].into_iter().chain(text.bytes().map(u64::from)).collect()
}

const NAMED: &str = ".i 1\n.o 1\n.ilb A\n.ob A\n.type fr\n.e\n";
const PLAIN: &str = ".i 1\n.o 1\n.type fr\n.e\n";

#[test]
fn requests_with_names() {
    // write, an empty sheet of one relay, in 40 bytes
    let sheet = lent(".i 1\n.o 1\n.ilb A\n.ob A\n.type f\n.p 0\n.e\n");
    let done = [&[0; 6], &sheet[..], &[63]].concat();
    let room = [&[40], &[63; 40][..]].concat();
    assert_eq!(answered(&[vec![9, 1, 0, 0], lent(NAMED), vec![0], room.clone()].concat()), done);
    assert_eq!(answered(&[vec![9, 1, 0, 0], lent(PLAIN), lent(NAMED), room].concat()), done);
    // lookup, in the panel's text, of no column of it, and in the maker's
    let lookup = |column: u64, panel: &str, maker: &str| {
        answered(&[vec![11, column], lent(panel), lent(maker)].concat())
    };
    assert_eq!(lookup(0, NAMED, ""), [0, 15, 1]);
    assert_eq!(lookup(1, NAMED, ""), [0, 0, 0]);
    assert_eq!(lookup(u64::MAX, NAMED, ""), [0, 0, 0]);
    assert_eq!(lookup(0, PLAIN, NAMED), [1, 15, 1]);
    assert_eq!(lookup(0, "", NAMED), [0, 0, 0]);
    // The same in the text of a sheet.
    let sheet = NAMED.replace("fr", "f");
    assert_eq!(lookup(0, &sheet, ""), [0, 15, 1]);
    assert_eq!(lookup(0, PLAIN, &sheet), [1, 15, 1]);
    assert_eq!(lookup(0, &sheet.replace(".type f\n", ""), &sheet), [0, 0, 0]);
}

#[test]
fn a_malformed_request_ends_the_stream() {
    let good = [1, 2, 0];
    let answer = [9, 0, 0, 0, 0, 0];
    for words in malformed() {
        // What follows may make good a request that is only cut short: so it also ends the input.
        for stream in [[&good[..], &words].concat(), [&good[..], &words, &good].concat()] {
            let (answers, ended_well) = served(&bytes_of(&stream));
            if stream.len() == good.len() + words.len() {
                assert_eq!((&answers[..], ended_well), (&answer[..], false), "{words:?}");
            }
            assert_eq!(answers[..6], answer, "{words:?}");
        }
    }
    let mut half_a_word = bytes_of(&good);
    half_a_word.push(0);
    assert_eq!(served(&half_a_word), (answer.to_vec(), false));
    assert_eq!(served(&[]), (vec![], true));
    assert_eq!(answered(&[good, good].concat()), [answer, answer].concat());
}

#[test]
fn the_longest_slice() {
    let mut request = vec![1, 2, MOST_WORDS];
    request.extend(vec![7; MOST_WORDS as usize]);
    let answer = answered(&request);
    assert_eq!(answer.len(), 6 + MOST_WORDS as usize);
    assert_eq!(answer[..8], [0, 0, 0, 2, 0, 0, 0, 1048576]);
}

#[test]
fn few_seeded_cases_reach_every_code() {
    for seed in 0..3 {
        let cases = targets().len() as u64 + 100;
        let (mut stream, mut answers) = (Vec::new(), Vec::new());
        for request in requests(cases, seed) {
            stream.extend(bytes_of(&request.words()));
        }
        assert!(serve(&mut &stream[..], &mut answers).unwrap());
        let tally = Tally::of_streams(&mut &stream[..], &mut &answers[..]).unwrap();
        assert_eq!(tally.failures(), Vec::<String>::new());
        // The same seed gives the same stream.
        let again: Vec<u8> =
            requests(cases, seed).flat_map(|request| bytes_of(&request.words())).collect();
        assert!(again == stream);
        // An answer too few, or one byte too many, is noticed.
        let short = &answers[..answers.len() - 8];
        let tally = Tally::of_streams(&mut &stream[..], &mut &short[..]).unwrap();
        assert_ne!(tally.failures(), Vec::<String>::new());
        answers.push(0);
        let tally = Tally::of_streams(&mut &stream[..], &mut &answers[..]).unwrap();
        assert_eq!(tally.failures(), ["answers follow the last request's"]);
    }
}

#[test]
fn a_code_never_reached_or_never_possible_fails() {
    let mut tally = Tally::default();
    assert_eq!(tally.failures().len(), targets().len());
    let request = requests(1, 0).next().unwrap();
    tally.count(&request, &request.answer());
    assert_eq!(tally.failures().len(), targets().len() - 1);
    tally.count(&request, &[10, 0, 0, 0, 0, 0]);
    assert!(tally.failures().contains(&"fresh: code 10 cannot occur".to_string()));
}

#[test]
fn whose_name_was_looked_up() {
    let lookups: Vec<Request> =
        examples().into_iter().filter(|request| request.shape.call == LOOKUP).collect();
    let mut tally = Tally::default();
    for request in &lookups {
        tally.count(request, &request.answer());
    }
    assert!(!tally.failures().iter().any(|failure| failure.starts_with("lookup")));
    // No third text, no place within the empty part, and no name left out.
    let named = lookups.iter().find(|request| request.answer() == [0, 15, 4]).unwrap();
    for answer in [[2, 15, 4], [0, 15, 0], [0, 0, 0]] {
        let mut tally = Tally::default();
        tally.count(named, &answer);
        let failure = "answer 1 is none that lookup gives".to_string();
        assert!(tally.failures().contains(&failure), "{answer:?}");
    }
}

#[test]
fn what_kind_of_text_the_name_was_found_in() {
    let sheet = "\n.i 1\n.o 1\n.ilb A\n.ob A\n.type f\n.e\n";
    let texts = [
        (NAMED.to_string(), Source::Recording),
        (sheet.to_string(), Source::GoodSheet),
        (sheet.replace(".e", "1 1\n.e"), Source::GoodSheet),
        (sheet.replace(".e", "1 1\n1 1\n.e"), Source::OtherSheet),
        (sheet.replace(".e", "1 1\n- 1\n.e"), Source::OtherSheet),
    ];
    for (text, source) in texts {
        let plain = ".i 1\n.o 1\n.type f\n.e\n";
        let lookups = [
            (lookup_in(&text, ""), Outcome::PanelName(source)),
            (lookup_in(plain, &text), Outcome::MakerName(source)),
        ];
        for (request, outcome) in lookups {
            assert_eq!(outcome_of(&request, &request.answer()), Some(outcome), "{text:?}");
        }
    }
    // No name stands in a bad text.
    assert_eq!(outcome_of(&lookup_in("", NAMED), &[0, 15, 1]), None);
    assert_eq!(outcome_of(&lookup_in(PLAIN, ""), &[1, 15, 1]), None);
}

/// A request to look up column 0.
fn lookup_in(panel: &str, maker: &str) -> Request {
    let slices = [panel, maker].map(|text| text.bytes().map(u64::from).collect());
    Request { shape: shape_of(LOOKUP).unwrap(), numbers: vec![0], slices: slices.to_vec() }
}

/// A request to read or run a text, with so much room in each slice.
fn request_with(call: u64, text: &str, rooms: &[usize]) -> Request {
    let text = text.bytes().map(u64::from).collect();
    let lent = rooms.iter().map(|room| vec![7; *room]);
    let slices = [text].into_iter().chain(lent).collect();
    Request { shape: shape_of(call).unwrap(), numbers: vec![], slices }
}

/// A request to read a text, and one to run it.
fn read_and_run(text: &str) -> [Request; 2] {
    [request_with(READ, text, &[4]), request_with(RUN, text, &[4, 4, 4, 40])]
}

#[test]
fn how_reading_a_sheet_ended() {
    let texts = [
        (".i 1\n.o 1\n.type f\n1 1\n.e\n", Outcome::Code(0)),
        (".i 1\n.o 1\n.type f\n.ilb A\n.ob A\n.e\n", Outcome::Named),
        (".i 1\n.o 1\n.type f\n1 1\n1 1\n.e\n", Outcome::Code(5)),
        (".i 1\n.o 1\n.type f\n1 1\n1 1\n1 1\n.e\n", Outcome::Code(8)),
        (".i 1\n.o 1\n1 1\n.e\n", Outcome::UntypedRow),
        (".i 1\n.o 1\n1 1\n1 1\n1 1\n.e\n", Outcome::UntypedRow),
        (".p 0\n.i 1\n.o 1\n.e", Outcome::UntypedEnd),
        // Something else is wrong, or that as well.
        (".i 1\n.o 1\n1 0\n.e\n", Outcome::Code(11)),
        (".p 1\n.i 1\n.o 1\n.e", Outcome::Code(11)),
        (".i 1\n.o 1\n1 1\n.type f\n.e\n", Outcome::Code(11)),
        (PLAIN, Outcome::Code(11)),
    ];
    for (text, outcome) in texts {
        let request = request_with(READ_SHEET, text, &[2]);
        assert_eq!(outcome_of(&request, &request.answer()), Some(outcome), "{text:?}");
    }
}

#[test]
fn refused_for_want_of_the_type_line_alone() {
    let texts = [
        (".i 1\n.o 1\n1 0\n.e\n", Outcome::UntypedRow),
        (".p 1\n.i 1\n.o 1\n- 0\n.e", Outcome::UntypedRow),
        (".i 1\n.o 1\n.e\n", Outcome::UntypedEnd),
        // Something else is wrong, or that as well.
        (".p 2\n.i 1\n.o 1\n1 0\n.e\n", Outcome::Code(11)),
        (".i 1\n.o 1\n", Outcome::Code(11)),
        (".i 1\n.o 1\n.type f\n.e\n", Outcome::Code(11)),
        (".i 1\n.o 1\n1 0\n.type fr\n.e\n", Outcome::Code(11)),
        (".i 1\n.o 1\n.type fr\nx\n.e\n", Outcome::Code(11)),
        (PLAIN, Outcome::Code(0)),
    ];
    for (text, outcome) in texts {
        for request in read_and_run(text) {
            assert_eq!(outcome_of(&request, &request.answer()), Some(outcome), "{text:?}");
        }
    }
}

/// The reader of recordings refuses the text with 11.
fn no_recording(text: &[u8]) -> bool {
    read(text, &mut []).code == 11
}

/// The reader of sheets does.
fn no_sheet(text: &[u8]) -> bool {
    read_sheet(text, &mut []).code == 11
}

/// Both readers do.
fn is_bad(text: &[u8]) -> bool {
    no_recording(text) && no_sheet(text)
}

/// The texts that a slice holds in all requests of a call.
fn texts_of(requests: &[Request], call: u64, place: usize) -> Vec<Vec<u8>> {
    let of_call = requests.iter().filter(|request| request.shape.call == call);
    of_call.map(|request| request.lent_bytes(place)).collect()
}

/// Where a text is lent: the call, the slice, who refuses it with 11, and its type line.
type Place = (u64, usize, Refuses, &'static str);
type Refuses = fn(&[u8]) -> bool;
const PLACES: [Place; 7] = [
    (READ, 0, no_recording, ".type fr\n"),
    (RUN, 0, no_recording, ".type fr\n"),
    (LOOKUP, 0, is_bad, ".type fr\n"),
    (LOOKUP, 1, is_bad, ".type fr\n"),
    (WRITE, 1, is_bad, ".type fr\n"),
    (WRITE, 2, is_bad, ".type fr\n"),
    (READ_SHEET, 0, no_sheet, ".type f\n"),
];

#[test]
fn seeded_texts_lack_the_type_line_wherever_a_text_is_lent() {
    let requests: Vec<Request> = requests(5_000, 0).collect();
    for (call, place, refused, type_line) in PLACES {
        let texts = texts_of(&requests, call, place);
        let some = |what: &str, is_one: &dyn Fn(&[u8]) -> bool| {
            let count = texts.iter().filter(|text| is_one(text)).count();
            assert!(count > 0, "call {call}, slice {place}: no text with {what}");
            count
        };
        let typed = |text: &[u8]| [type_line.as_bytes(), text].concat();
        let lacks_type = |text: &[u8]| refused(text) && !refused(&typed(text));
        let good = some("no fault", &|text| !refused(text));
        let lacking = some("no type line alone", &lacks_type);
        assert!(3 * lacking < good);
        some("names and no type line", &|text| {
            lacks_type(text) && found(0, &typed(text), b"").is_ok()
        });
        some("another type", &|text| {
            let plain = String::from_utf8_lossy(text);
            refused(text) && !refused(plain.replace(".type fd\n", type_line).as_bytes())
        });
    }
}

#[test]
fn seeded_texts_of_one_kind_are_given_to_the_reader_of_the_other() {
    let requests: Vec<Request> = requests(5_000, 0).collect();
    let refused_by: [(u64, Refuses); 3] =
        [(READ, no_sheet), (RUN, no_sheet), (READ_SHEET, no_recording)];
    for (call, refused) in refused_by {
        let of_the_other = |text: &Vec<u8>| !refused(text);
        assert!(texts_of(&requests, call, 0).iter().any(of_the_other), "call {call}");
    }
}

#[test]
fn seeded_texts_lack_the_type_line_and_the_end() {
    // Sizes, and neither type line nor row nor end mark: put in, the type line and the end mark
    // are enough, and either of them is not.
    let requests: Vec<Request> = requests(5_000, 0).collect();
    let unended = |text: &Vec<u8>| {
        let typed = [b".type fr\n", &text[..]].concat();
        let whole = read(&[&typed[..], b"\n.e"].concat(), &mut []);
        is_bad(text) && no_recording(&typed) && (whole.code, whole.count) == (0, 0)
    };
    for call in [READ, READ_SHEET] {
        assert!(texts_of(&requests, call, 0).iter().any(unended), "call {call}");
    }
}

/// The column and the two texts of a lookup, or of the last one that a write makes.
fn last_lookup(request: &Request) -> (u64, Vec<u8>, Vec<u8>) {
    let (column, panel) = match request.shape.call {
        LOOKUP => (request.numbers[0], 0),
        _ => (request.numbers[0].wrapping_sub(1), 1),
    };
    (column, request.lent_bytes(panel), request.lent_bytes(panel + 1))
}

/// Of a column, a panel's text and a maker's.
type IsOne<'a> = &'a dyn Fn(u64, &[u8], &[u8]) -> bool;

#[test]
fn seeded_texts_of_both_kinds_are_lent_to_lookup_and_write() {
    let requests: Vec<Request> = requests(5_000, 0).collect();
    for call in [LOOKUP, WRITE] {
        let of_call = requests.iter().filter(|request| request.shape.call == call);
        let asked: Vec<(u64, Vec<u8>, Vec<u8>)> = of_call.map(last_lookup).collect();
        let some = |what: &str, is_one: IsOne| {
            let mut asked = asked.iter();
            let found = asked.any(|(column, panel, maker)| is_one(*column, panel, maker));
            assert!(found, "call {call}: none with {what}");
        };
        let why = |column: u64, panel: &[u8], maker: &[u8]| found(column, panel, maker).err();
        some("a sheet that has no such column", &|column, panel, maker| {
            !no_sheet(panel) && why(column, panel, maker) == Some(NoName::AbovePanel)
        });
        some("a maker's sheet that has no such column", &|column, panel, maker| {
            !no_sheet(maker) && why(column, panel, maker) == Some(NoName::AboveMaker)
        });
        some("a sheet beside a recording's names", &|column, panel, maker| {
            let name = found(column, panel, maker);
            !no_sheet(panel) && !no_recording(maker) && name.is_ok_and(|part| part.of_maker)
        });
        some("a recording beside a sheet's names", &|column, panel, maker| {
            let name = found(column, panel, maker);
            !no_recording(panel) && !no_sheet(maker) && name.is_ok_and(|part| part.of_maker)
        });
        some("two sheets without names", &|column, panel, maker| {
            let neither = why(column, panel, maker) == Some(NoName::Neither);
            neither && !no_sheet(panel) && !no_sheet(maker)
        });
        some("a sheet's text, no good one, with names", &|column, panel, maker| {
            let room = &mut [0; 2_000][..];
            read_sheet(panel, room).code == 5 && found(column, panel, maker).is_ok()
        });
    }
}

#[test]
fn a_skipped_call_is_neither_asked_nor_expected() {
    let mut tally = Tally::default();
    for request in requests_but(200, 0, Some(RUN)) {
        assert_ne!(request.shape.call, RUN);
        tally.count(&request, &request.answer());
    }
    assert_eq!(tally.failures_but(Some(RUN)), Vec::<String>::new());
    assert_ne!(tally.failures(), Vec::<String>::new());
}

#[test]
fn what_the_program_printed() {
    assert_eq!(printed_outcome(b".i 1\n"), Some(Outcome::Code(0)));
    assert_eq!(printed_outcome(NAMED.as_bytes()), Some(Outcome::Named));
    assert_eq!(printed_outcome(b"refused 13 at 0\n"), Some(Outcome::Code(13)));
    assert_eq!(printed_outcome(b""), Some(Outcome::NoRoomForLine));
    assert_eq!(printed_outcome(b"x"), None);
}

#[test]
fn the_examples_are_requests() {
    let stream: Vec<u8> =
        examples().iter().flat_map(|request| bytes_of(&request.words())).collect();
    let (answers, ended_well) = served(&stream);
    let words: usize = examples().iter().map(|request| request.answer_length()).sum();
    assert_eq!((answers.len(), ended_well), (words, true));
}
