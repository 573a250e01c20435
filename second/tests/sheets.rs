//! Sheets that come back from site: the reader of sheet texts, and names looked up in them.

use second::cases::dice::Dice;
use second::sheets::is_good_sheet;
use second::text::{found, lookup, read, read_sheet, rulesheet, sheet_text, write};
use second::text::{NoName, Part, Reading};

/// What the reader answers, and the slice of so many words after it; it is full of 9 before.
fn sheet_read(text: &str, room: usize) -> (Reading, Vec<u32>) {
    let mut words = vec![9; room];
    let reading = read_sheet(text.as_bytes(), &mut words);
    (reading, words)
}

/// The words of a text of n relays that is read, in exactly their room and in more.
fn words(n: u32, text: &str) -> Vec<u32> {
    let (reading, mut words) = sheet_read(text, 2_000);
    let count = reading.count as usize;
    assert_eq!(reading, Reading { code: 0, place: 0, n, count: reading.count }, "{text:?}");
    assert!(words[count..].iter().all(|word| *word == 0));
    words.truncate(count);
    assert_eq!(sheet_read(text, count), (reading, words.clone()));
    words
}

/// The text is refused with the code and place in so much room, which is 0 then.
fn refused(code: u64, place: u64, text: &str, room: usize) {
    let refused = Reading { code, place, n: 0, count: 0 };
    assert_eq!(sheet_read(text, room), (refused, vec![0; room]), "{text:?}");
}

/// The text is refused with 11 at the line, with room and without.
fn faulty(text: &str, line: u64) {
    refused(11, line, text, 3);
    refused(11, line, text, 0);
}

#[test]
fn the_sheet_of_document_01() {
    let text = ".i 3\n.o 3\n.type f\n.p 3\n-1- 100\n1-1 010\n0-- 001\n.e\n";
    assert_eq!(words(3, text), [2048, 1053696, 2097153]);
    let otherwise =
        "#\n .o\t3\n.type f#r\n\n.i 3\n0--  001 # x\n\t-1- 100\n\n#\n1-1\t010 \n.end\n\n";
    assert_eq!(words(3, otherwise), [2048, 1053696, 2097153]);
    assert_eq!(words(3, &text.replace(".p 3\n", "")), [2048, 1053696, 2097153]);
    assert_eq!(words(1, ".i 1\n.o 1\n.type f\n.p 0\n.e"), []);
    let of_ten = ".i 10\n.o 10\n.type f\n01-------1 0000000001\n.e";
    assert_eq!(words(10, of_ten), [9 * 1_048_576 + 514 * 1_024 + 1]);
}

#[test]
fn the_output_of_a_row_has_exactly_one_1() {
    let text = |output: &str| format!(".i 3\n.o 3\n.type f\n0-1 001\n--- {output}\n.e\n");
    for (head, output) in ["100", "010", "001"].iter().enumerate() {
        let found = sheet_read(&text(output), 2).0;
        // The empty body lies within the other row's.
        assert_eq!((found.code, found.count), if head == 2 { (5, 0) } else { (0, 2) });
    }
    let others =
        ["000", "110", "101", "011", "111", "-00", "-10", "01-", "---", "10", "0100", "012"];
    for output in others.into_iter().chain(["", "1", "1 0 0", "01 0", "01\u{b}", "010\r"]) {
        faulty(&text(output), 5);
    }
    // An input is no output, and dashes may stand in it alone.
    assert_eq!(words(3, ".i 3\n.o 3\n.type f\n111 100\n.e"), [7 << 10]);
    assert_eq!(words(3, ".i 3\n.o 3\n.type f\n000 100\n.e"), [7]);
    for input in ["11", "1111", "1x1", "121", "1.1", ""] {
        faulty(&format!(".i 3\n.o 3\n.type f\n{input} 100\n.e"), 4);
    }
}

#[test]
fn the_type_line_of_a_sheet() {
    for place in 0..=5 {
        let headers = [".i 2", ".ilb a b", ".p 1", ".ob a b", ".o 2"];
        let (before, after) = headers.split_at(place);
        let lines = [before, &[".type f"], after, &["01 10", ".e"]].concat();
        assert_eq!(words(2, &lines.join("\n")), [2049]);
        faulty(&[before, after, &["01 10", ".e"]].concat().join("\n"), 6);
        faulty(&[before, after, &[".e"]].concat().join("\n"), 6);
        for other in ["fr", "fd", "", "F", "f f", "f.", "f\r", "r"] {
            let line = format!(".type {other}");
            let lines = [before, &[&line], after, &["01 10", ".e"]].concat();
            faulty(&lines.join("\n"), place as u64 + 1);
        }
    }
    faulty(".i 2\n.o 2\n.type f\n.type f\n01 10\n.e", 4);
    faulty(".i 2\n.o 2\n.type f\n.type fr\n01 10\n.e", 4);
    faulty(".i 2\n.o 2\n01 10\n.type f\n.e", 3);
    faulty(".i 2\n.o 2\n.e\n.type f\n", 3);
    faulty(".i 2\n.o 2\n", 3);
    faulty(".i 2\n.o 2\n.type f\n", 4);
}

#[test]
fn headers_as_in_recordings() {
    let text = |headers: &str| format!("{headers}\n.type f\n01 10\n.e");
    assert_eq!(words(2, &text(".ob a B\n.i 2\n.ilb a B\n.o 2")), [2049]);
    faulty(&text(".i 2\n.o 3"), 2);
    faulty(&text(".i 11\n.o 11"), 1);
    faulty(&text(".i 2\n.i 2\n.o 2"), 2);
    faulty(&text(".i 2\n.o 2\n.ilb a b"), 5);
    faulty(&text(".i 2\n.o 2\n.ilb a b\n.ob b a"), 4);
    faulty(&text(".ilb a a\n.ob a a\n.i 2\n.o 2"), 1);
    faulty(&text(".i 2\n.o 2\n.ilb a b c\n.ob a b c"), 3);
    faulty(&text(".i 2\n.o 2\n.p 01"), 3);
    faulty(&text(".i 2\n.o 2\n.p 1\n.p 1"), 4);
    // The number of rows as written, compared last.
    for number in ["0", "2", "4294967297", "18446744073709551617"] {
        let numbered = text(&format!(".p {number}\n.i 2\n.o 2"));
        faulty(&numbered, 1);
        faulty(&format!("{numbered}\nx"), 7);
        faulty(numbered.trim_end_matches("\n.e"), 6);
    }
}

/// What a line of a sheet text says by itself.
#[derive(Clone, Debug, PartialEq)]
enum Says<'a> {
    Nothing,
    Size(usize, usize),
    Names(usize, Vec<&'a str>),
    Type,
    Number(&'a str),
    Row(usize, usize),
    End,
    Fault,
}

fn says(line: &str) -> Says<'_> {
    let fields: Vec<&str> = line.split('#').next().unwrap().split_whitespace().collect();
    match fields[..] {
        [] => Says::Nothing,
        [".i", n @ ("1" | "2")] => Says::Size(0, n.parse().unwrap()),
        [".o", n @ ("1" | "2")] => Says::Size(1, n.parse().unwrap()),
        [".ilb", ref names @ ..] if !names.is_empty() => Says::Names(0, names.to_vec()),
        [".ob", ref names @ ..] if !names.is_empty() => Says::Names(1, names.to_vec()),
        [".type", "f"] => Says::Type,
        [".p", k @ ("0" | "1" | "2")] => Says::Number(k),
        [".e"] => Says::End,
        [input @ ("-" | "0" | "1" | "-1" | "01"), output @ ("1" | "01" | "10")] => {
            Says::Row(input.len(), output.len())
        }
        _ => Says::Fault,
    }
}

/// One walk from the first line to the last: the size of the text, or its faulty line.
#[derive(Default)]
struct Walk<'a> {
    sizes: [Option<usize>; 2],
    names: [Option<Vec<&'a str>>; 2],
    typed: bool,
    number: Option<(&'a str, usize)>,
    rows: usize,
    ended: bool,
}

impl<'a> Walk<'a> {
    fn agrees(&self, relays: usize) -> bool {
        let named = self.names.iter().flatten().map(Vec::len);
        self.sizes.iter().flatten().copied().chain(named).all(|other| other == relays)
    }

    /// The headers are all there.
    fn whole(&self) -> bool {
        let [input_names, output_names] = &self.names;
        let paired = input_names.is_some() == output_names.is_some();
        self.typed && paired && self.sizes.iter().all(Option::is_some)
    }

    /// The line may stand here.
    fn step(&mut self, place: usize, line: Says<'a>) -> bool {
        let header = self.rows == 0 && !self.ended;
        match line {
            Says::Nothing => true,
            Says::Fault => false,
            Says::Size(which, n) => {
                let fits = header && self.agrees(n) && self.sizes[which].is_none();
                self.sizes[which] = Some(n);
                fits
            }
            Says::Names(which, names) => {
                let alike = self.names.iter().flatten().all(|other| *other == names);
                let fits = header && alike && self.agrees(names.len());
                let once = self.names[which].replace(names).is_none();
                fits && once
            }
            Says::Type => header && !std::mem::replace(&mut self.typed, true),
            Says::Number(k) => header && self.number.replace((k, place)).is_none(),
            Says::Row(input, output) => {
                self.rows += 1;
                self.whole() && !self.ended && self.agrees(input) && self.agrees(output)
            }
            Says::End => self.whole() && !std::mem::replace(&mut self.ended, true),
        }
    }
}

fn walk(lines: &[&str]) -> Result<(u32, u64), u64> {
    let mut walk = Walk::default();
    for (place, line) in lines.iter().enumerate() {
        if !walk.step(place, says(line)) {
            return Err(place as u64 + 1);
        }
    }
    if !walk.ended {
        return Err(lines.len() as u64 + 1);
    }
    match walk.number {
        Some((k, place)) if k != walk.rows.to_string() => Err(place as u64 + 1),
        _ => Ok((walk.sizes[0].unwrap() as u32, walk.rows as u64)),
    }
}

/// The walk and the reader agree on all texts that begin with a head and have at most so many
/// lines after it; and the reader of recordings accepts none that the reader of sheets does.
fn agree_up_to(longest: u32, head: &[&str], alphabet: &[&str]) {
    let letters = alphabet.len();
    for length in 0..=longest {
        for number in 0..letters.pow(length) {
            let line = |place| alphabet[number / letters.pow(place) % letters];
            let lines: Vec<&str> = head.iter().copied().chain((0..length).map(line)).collect();
            let text: String = lines.iter().map(|line| format!("{line}\n")).collect();
            agree(&text, walk(&lines));
        }
    }
}

fn agree(text: &str, walked: Result<(u32, u64), u64>) {
    let (reading, _) = sheet_read(text, 9);
    match walked {
        Err(place) => {
            assert_eq!(reading, Reading { code: 11, place, n: 0, count: 0 }, "{text:?}");
        }
        Ok((n, count)) => {
            let done = Reading { code: 0, place: 0, n, count };
            let no_good_sheet = Reading { code: 5, ..Reading::default() };
            assert!(reading == done || reading == no_good_sheet, "{text:?}");
            assert_eq!(read(text.as_bytes(), &mut [0; 99]).code, 11, "{text:?}");
        }
    }
}

#[test]
fn the_faulty_line_and_the_walk_agree() {
    let lines = [
        "", ".i 1", ".i 2", ".o 1", ".o 2", ".type f", ".type fr", ".p 1", "1 1", "- 0", "-1 01",
        ".e",
    ];
    agree_up_to(4, &[], &lines);
    agree_up_to(4, &[".type f"], &lines);
    agree_up_to(4, &[".o 1", ".type f", ".i 1"], &lines);
    agree_up_to(3, &[".o 2", ".i 2", ".type f", "-1 10"], &lines);
}

#[test]
fn the_faulty_line_and_the_walk_agree_on_rows() {
    let rows = ["- 1", "0 1", "1 1", "1 -", "1 0", "1 10", "1 11", "-1 1", "1 1 1", "# x", ".e"];
    agree_up_to(4, &[".i 1", ".o 1", ".type f"], &rows);
    agree_up_to(3, &[".i 1", ".p 2", ".o 1", ".type f"], &rows);
    agree_up_to(3, &[".i 1", ".o 1", ".type fr"], &rows);
    agree_up_to(3, &[".i 1", ".o 1"], &rows);
    let outputs = ["-1 10", "-1 01", "-1 11", "-1 00", "-1 -1", "-1 1-", "-1 1", "01 10", ".e"];
    agree_up_to(3, &[".i 2", ".o 2", ".type f"], &outputs);
}

#[test]
fn the_faulty_line_and_the_walk_agree_with_names() {
    let lines =
        [".i 1", ".o 1", ".ilb a", ".ob a", ".ob b", ".ilb a b", ".ob a b", ".type f", "1 1", ".e"];
    agree_up_to(4, &[], &lines);
    agree_up_to(4, &[".type f", ".i 1"], &lines);
    agree_up_to(4, &[".type f", ".ob a"], &lines);
}

/// A text of a recording is none of a sheet, whatever its rows are, and the other way round.
#[test]
fn no_text_is_of_both_kinds() {
    let rows = ["", "01 10\n", "01 10\n10 01\n", "-- 01\n"];
    for row in rows {
        for names in ["", ".ilb a b\n.ob a b\n"] {
            let text = |word: &str| format!(".i 2\n.o 2\n.type {word}\n{names}{row}.e\n");
            assert_eq!(sheet_read(&text("f"), 9).0.code, 0);
            assert_eq!(read(text("fr").as_bytes(), &mut [0; 99]).code, 0);
            let refused = Reading { code: 11, place: 3, n: 0, count: 0 };
            assert_eq!(sheet_read(&text("fr"), 9), (refused, vec![0; 9]));
            assert_eq!(read(text("f").as_bytes(), &mut [0; 99]), refused);
            // The program's input is a recording still.
            assert_eq!(rulesheet(text("f").as_bytes()), b"refused 11 at 3\n");
        }
    }
}

#[test]
fn eleven_then_eight_then_five() {
    // A row twice, and one body within another.
    for last in ["01 10", "0- 10"] {
        let text =
            |last: &str, end: &str| format!(".i 2\n.o 2\n.type f\n01 10\n10 10\n{last}\n{end}");
        let whole = text(last, ".e\n");
        for room in [3, 4, 9] {
            refused(5, 0, &whole, room);
            refused(5, 0, &format!(".p 3\n{whole}"), room);
        }
        // Rows as written, be they words of a good sheet or not.
        for room in [0, 1, 2] {
            refused(8, 0, &whole, room);
        }
        for room in [0, 2, 3, 9] {
            refused(11, 7, &text(last, ""), room);
            refused(11, 7, &text(last, "x\n.e"), room);
            refused(11, 8, &text(last, ".e\nx"), room);
            refused(11, 6, &text(&last.replace("10", "11"), ".e"), room);
            refused(11, 3, &whole.replace(" f", " fr"), room);
            refused(11, 1, &format!(".p 2\n{whole}"), room);
        }
    }
    // A good sheet needs a word for each row and no more.
    let good = ".i 2\n.o 2\n.type f\n01 10\n10 10\n01 01\n.e\n";
    refused(8, 0, good, 2);
    assert_eq!(words(2, good), [1026, 2049, 1048576 + 2049]);
    refused(8, 0, ".i 1\n.o 1\n.type f\n- 1\n.e", 0);
    assert_eq!(words(1, ".i 1\n.o 1\n.type f\n- 1\n.e"), [0]);
}

#[test]
fn one_body_within_another_of_the_same_head() {
    let text = |one: &str, two: &str| format!(".i 2\n.o 2\n.type f\n{one}\n{two}\n.e");
    for (one, two) in
        [("-- 10", "01 10"), ("0- 10", "01 10"), ("-0 01", "-- 01"), ("1- 10", "1- 10")]
    {
        refused(5, 0, &text(one, two), 2);
        refused(5, 0, &text(two, one), 2);
    }
    for (one, two) in
        [("-- 10", "01 01"), ("0- 10", "-1 10"), ("-0 01", "-1 01"), ("1- 10", "1- 01")]
    {
        assert_eq!(words(2, &text(one, two)), words(2, &text(two, one)));
    }
}

/// A random good sheet of n relays.
fn good_sheet(dice: &mut Dice, n: u32) -> Vec<u32> {
    let mut sheet = Vec::new();
    for _ in 0..dice.below(60) {
        let contacts = dice.below(1 << n) as u32 & dice.below(1 << n) as u32;
        let on = contacts & dice.below(1 << n) as u32;
        let word = dice.below(n.into()) as u32 * 1_048_576 + on * 1_024 + (contacts & !on);
        let mut more = [&sheet[..], &[word]].concat();
        more.sort_unstable();
        if is_good_sheet(n, &more) {
            sheet = more;
        }
    }
    sheet
}

/// The text with its rows shuffled, blank lines and comments among all lines, and blanks in them.
fn disturbed(dice: &mut Dice, text: &str) -> String {
    let (headers, rest): (Vec<&str>, Vec<&str>) =
        text.lines().partition(|line| line.starts_with('.') && *line != ".e");
    let mut rows: Vec<&str> = rest.into_iter().filter(|line| *line != ".e").collect();
    dice.shuffle(&mut rows);
    let mut disturbed = String::new();
    for line in headers.into_iter().chain(rows).chain([".e"]) {
        let before = *dice.pick(&["", "", "\n", "# x\n", " \t\n"]);
        let blanks = *dice.pick(&[" ", "\t", " \t "]);
        let end = *dice.pick(&["\n", " \n", "#.e\n", "\t# 0 1\n"]);
        disturbed += &format!("{before}{}{end}", line.replace(' ', blanks));
    }
    disturbed
}

/// What a sheet is written as beside a panel's text.
fn written(n: u32, sheet: &[u32], panel: &str) -> String {
    let mut out = vec![0; 9_999];
    let (answer, length) = write(n, sheet.len() as u64, sheet, panel.as_bytes(), b"", &mut out);
    assert_eq!(answer.code, 0);
    String::from_utf8(out[..length as usize].to_vec()).unwrap()
}

#[test]
fn what_was_written_is_read_and_written_again() {
    let mut dice = Dice::new(3);
    let mut most = 0;
    for n in 1..=10 {
        let all: Vec<String> = (0..n).map(|relay| format!("K_{relay}")).collect();
        let named = format!(".ilb {0}\n.ob {0}\n.i {n}\n.o {n}\n.type fr\n.e", all.join(" "));
        for panel in ["", &named] {
            for _ in 0..20 {
                let sheet = good_sheet(&mut dice, n);
                most = most.max(sheet.len());
                let text = written(n, &sheet, panel);
                assert_eq!(text.contains("K_0"), panel == named);
                assert_eq!(words(n, &text), sheet);
                let otherwise = disturbed(&mut dice, &text);
                assert_eq!(words(n, &otherwise), sheet);
                // Its own text is the panel's: the same names, and one text, however it stood.
                assert_eq!(written(n, &sheet, &text), text);
                assert_eq!(written(n, &sheet, &otherwise), text);
            }
        }
    }
    assert!(most > 30, "the sheets were small: {most}");
}

#[test]
fn a_text_is_read_to_the_sheet_it_lists() {
    // Every rule of two relays by itself, and all pairs of them.
    let bodies = ["--", "1-", "-1", "11", "0-", "-0", "00", "10", "01"];
    let masks = [0, 1024, 2048, 3072, 1, 2, 3, 1026, 2049];
    let rule = |number: usize| {
        let (head, body) = (number / 9, number % 9);
        (
            format!("{} {}\n", bodies[body], ["10", "01"][head]),
            head as u32 * 1_048_576 + masks[body],
        )
    };
    for one in 0..18 {
        let ((one_row, one_word), headers) = (rule(one), ".i 2\n.o 2\n.type f\n");
        assert_eq!(words(2, &format!("{headers}{one_row}.e")), [one_word]);
        for two in 0..18 {
            let (two_row, two_word) = rule(two);
            let both = [one_word.min(two_word), one_word.max(two_word)];
            let text = format!("{headers}{one_row}{two_row}.e");
            if is_good_sheet(2, &both) {
                assert_eq!(words(2, &text), both);
            } else {
                refused(5, 0, &text, 2);
            }
        }
    }
}

const RECORDING: &[u8] = b".i 2\n.o 2\n.ilb r s\n.ob r s\n.type fr\n.e\n";
const PLAIN: &[u8] = b".i 2\n.o 2\n.type fr\n01 10\n.e\n";
const PLAIN_SHEET: &[u8] = b".i 2\n.o 2\n.type f\n01 10\n.e\n";

/// Sheets with the names a and Bc at 15 and 17: a good one, an empty one, and such as are refused
/// with 5.
const SHEETS: [&[u8]; 4] = [
    b".i 2\n.o 2\n.ilb a Bc\n.ob a Bc\n.type f\n.p 1\n01 10\n.e\n",
    b".i 2\n.o 2\n.ilb a Bc\n.ob a Bc\n.type f\n.e",
    b".i 2\n.o 2\n.ilb a Bc\n.ob a Bc\n.type f\n01 10\n01 10\n.e\n",
    b".i 2\n.o 2\n.ilb a Bc\n.ob a Bc\n.type f\n01 10\n-- 10\n.e\n",
];

/// Texts with names that both readers refuse with 11.
const BAD: [&[u8]; 7] = [
    b"",
    b".i 2\n.o 2\n.ilb a Bc\n.ob a Bc\n.type f\n",
    b".i 2\n.o 2\n.ilb a Bc\n.ob a Bc\n.type f\n01 11\n.e\n",
    b".i 2\n.o 2\n.ilb a Bc\n.ob a Bc\n.type f\n.p 2\n01 10\n.e\n",
    b".i 2\n.o 2\n.ilb a Bc\n.ob a Bc\n.type f\n.type fr\n01 10\n.e\n",
    b".i 2\n.o 2\n.ilb a Bc\n.type f\n01 10\n.e\n",
    b".i 2\n.o 2\n.ilb a Bc\n.ob a Bc\n01 10\n.e\n",
];

#[test]
fn a_name_from_the_text_of_a_sheet() {
    for sheet in SHEETS {
        for other in [&[RECORDING, PLAIN, PLAIN_SHEET][..], &SHEETS, &BAD].concat() {
            let name = |start, length| Part { of_maker: false, start, length };
            assert_eq!(lookup(0, sheet, other), name(15, 1));
            assert_eq!(lookup(1, sheet, other), name(17, 2));
            for column in [2, 3, 10, 1 << 32, u64::MAX] {
                assert_eq!(lookup(column, sheet, other), Part::default());
                assert_eq!(found(column, sheet, other), Err(NoName::AbovePanel));
            }
        }
        for plain in [PLAIN, PLAIN_SHEET] {
            let name = Part { of_maker: true, start: 17, length: 2 };
            assert_eq!(lookup(1, plain, sheet), name);
            assert_eq!(found(2, plain, sheet), Err(NoName::AboveMaker));
        }
        assert_eq!(lookup(1, RECORDING, sheet), Part { of_maker: false, start: 17, length: 1 });
    }
    for plain in [PLAIN, PLAIN_SHEET] {
        assert_eq!(lookup(0, plain, RECORDING), Part { of_maker: true, start: 15, length: 1 });
        for other in [PLAIN, PLAIN_SHEET] {
            assert_eq!(found(0, plain, other), Err(NoName::Neither));
        }
    }
}

#[test]
fn a_text_is_bad_if_both_readers_refuse_it_with_11() {
    for bad in BAD {
        let text = String::from_utf8_lossy(bad);
        assert_eq!(sheet_read(&text, 9).0.code, 11);
        assert_eq!(read(bad, &mut [0; 9]).code, 11);
        for column in [0, 1, 2] {
            for maker in [&[RECORDING, PLAIN, PLAIN_SHEET][..], &SHEETS, &BAD].concat() {
                assert_eq!(lookup(column, bad, maker), Part::default());
                assert_eq!(found(column, bad, maker), Err(NoName::BadPanel));
            }
            for plain in [PLAIN, PLAIN_SHEET] {
                assert_eq!(lookup(column, plain, bad), Part::default());
                assert_eq!(found(column, plain, bad), Err(NoName::BadMaker));
            }
        }
    }
}

#[test]
fn a_sheet_is_written_with_the_names_of_a_sheet() {
    let named = ".i 2\n.o 2\n.ilb a Bc\n.ob a Bc\n.type f\n.p 1\n01 10\n.e\n";
    let one = ".i 1\n.o 1\n.ilb a\n.ob a\n.type f\n.p 1\n- 1\n.e\n";
    for sheet in SHEETS {
        for (panel, maker) in [(sheet, &b""[..]), (PLAIN, sheet), (PLAIN_SHEET, sheet)] {
            assert_eq!(sheet_text(2, &[2049], panel, maker), named);
            assert_eq!(sheet_text(1, &[0], panel, maker), one);
            assert!(!sheet_text(3, &[], panel, maker).contains("ilb"));
        }
    }
    for bad in BAD {
        let plain = ".i 2\n.o 2\n.type f\n.p 1\n01 10\n.e\n";
        assert_eq!(sheet_text(2, &[2049], bad, SHEETS[0]), plain);
        assert_eq!(sheet_text(2, &[2049], PLAIN_SHEET, bad), plain);
    }
}
