//! Random recording texts, well made and damaged, and what they have in common with sheet texts.

use super::dice::Dice;
use super::lending::{manner, relays, successor, transitions};
use super::sheet_texts::{sheet_of, sheet_text};
use crate::layout::{Kind, LONGEST_NAME};
use crate::panel::{state_count, MOST_RELAYS};
use crate::text::MOST_INPUT;

/// A random text. If it is to be learned, large panels get few states.
pub fn text(dice: &mut Dice, to_learn: bool) -> Vec<u8> {
    match dice.below(100) {
        0..=50 => {
            let lines = recording(dice, to_learn);
            decorated(dice, &lines)
        }
        51..=54 => small_sheet(dice),
        55..=74 => {
            let mut lines = recording(dice, to_learn);
            for _ in 0..1 + dice.below(2) {
                damage_lines(dice, &mut lines);
            }
            decorated(dice, &lines)
        }
        75..=84 => {
            let lines = recording(dice, to_learn);
            let mut text = decorated(dice, &lines);
            for _ in 0..1 + dice.below(2) {
                damage_bytes(dice, &mut text);
            }
            text
        }
        85..=91 => {
            let lines = any_lines(dice, Kind::Recording);
            decorated(dice, &lines)
        }
        92..=93 => any_bytes(dice),
        94 => dice.pick(&SHORT).to_vec(),
        95..=96 => {
            let lines = recording(dice, to_learn);
            let text = decorated(dice, &lines);
            padded(dice, text)
        }
        _ => contradicting_or_numbered(dice, Kind::Recording),
    }
}

/// A sheet's own text, small: with another type line it might be learned.
fn small_sheet(dice: &mut Dice) -> Vec<u8> {
    let (n, named) = (relays(dice).min(6), dice.one_in(3));
    let lines = sheet_of(dice, n, named);
    decorated(dice, &lines)
}

/// Texts with hardly anything in them.
pub const SHORT: [&[u8]; 12] = [
    b"",
    b"\n",
    b"#",
    b" ",
    b".e",
    b"\n\n",
    b".i 1\n.o 1\n.type fr\n.e",
    b".i 1\n.o 1\n.type f\n.e",
    b".i 1\n.o 1\n.e",
    b".i 1\n.o 1\n",
    b".type fr\n.e",
    b".type f\n.e",
];

/// A random text to look names up in: mostly a recording or a sheet of n relays, with names or
/// without.
pub fn lent_text(dice: &mut Dice, n: u32) -> Vec<u8> {
    let kind = *dice.pick(&Kind::BOTH);
    let lines_of = |dice: &mut Dice, named: bool| match kind {
        Kind::Recording => recording_of(dice, n, named, true),
        Kind::Sheet => sheet_of(dice, n, named),
    };
    let lines = match dice.below(16) {
        0..=7 => lines_of(dice, true),
        8..=11 => lines_of(dice, false),
        12..=13 => {
            let mut lines = lines_of(dice, true);
            damage_names(dice, &mut lines);
            lines
        }
        14 => return Vec::new(),
        _ if kind == Kind::Sheet => return sheet_text(dice),
        _ => return text(dice, true),
    };
    decorated(dice, &lines)
}

/// The lines of a recording, without needless blanks. It is accepted unless it lacks the type line.
pub fn recording(dice: &mut Dice, to_learn: bool) -> Vec<Vec<u8>> {
    let (n, named) = (relays(dice), dice.one_in(3));
    recording_of(dice, n, named, to_learn)
}

fn recording_of(dice: &mut Dice, n: u32, named: bool, to_learn: bool) -> Vec<Vec<u8>> {
    let rows = rows(dice, n, to_learn);
    lines_of(dice, Kind::Recording, n, rows, named)
}

/// The headers of a text of the kind in any order, its rows and the end mark, and some blank lines.
pub fn lines_of(
    dice: &mut Dice,
    kind: Kind,
    n: u32,
    rows: Vec<Vec<u8>>,
    named: bool,
) -> Vec<Vec<u8>> {
    let mut lines = vec![format!(".i {n}").into_bytes(), format!(".o {n}").into_bytes()];
    lines.extend(type_line(dice, kind));
    if dice.one_in(2) {
        lines.push(format!(".p {}", rows.len()).into_bytes());
    }
    if named {
        let names = names(dice, n as usize);
        lines.extend([name_line(b".ilb", &names), name_line(b".ob", &names)]);
    }
    dice.shuffle(&mut lines);
    lines.extend(rows);
    lines.push(if dice.one_in(2) { b".e".to_vec() } else { b".end".to_vec() });
    for _ in 0..dice.below(4) {
        let line = blank_line(dice);
        lines.insert(dice.place(lines.len() + 1), line);
    }
    lines
}

/// The type line; none once in eight, and seldom that of the other kind or of neither.
fn type_line(dice: &mut Dice, kind: Kind) -> Option<Vec<u8>> {
    match dice.below(32) {
        0..=3 => None,
        4 => Some(dice.pick(&Kind::BOTH).type_line()),
        5 => Some(b".type fd".to_vec()),
        _ => Some(kind.type_line()),
    }
}

fn name_line(key: &[u8], names: &[Vec<u8>]) -> Vec<u8> {
    [&[key.to_vec()], names].concat().join(&b' ')
}

/// So many names, different from each other.
fn names(dice: &mut Dice, count: usize) -> Vec<Vec<u8>> {
    let mut names = Vec::new();
    while names.len() < count {
        let name = name(dice);
        if !names.contains(&name) {
            names.push(name);
        }
    }
    names
}

/// A name, of few different characters so that some names are nearly alike.
fn name(dice: &mut Dice) -> Vec<u8> {
    let length = *dice.pick(&[1, 1, 2, 2, 3, 5, LONGEST_NAME - 1, LONGEST_NAME, LONGEST_NAME]);
    let characters = *dice.pick(&[&b"ab"[..], b"01", b"aA_", b"09AZaz_"]);
    (0..length).map(|_| *dice.pick(characters)).collect()
}

/// An empty line or a comment; in a comment any byte may stand.
fn blank_line(dice: &mut Dice) -> Vec<u8> {
    if dice.one_in(2) {
        return Vec::new();
    }
    comment(dice)
}

fn comment(dice: &mut Dice) -> Vec<u8> {
    let mut comment = vec![b'#'];
    for _ in 0..dice.below(8) {
        comment.push(*dice.pick(b"# \t.ie01-\r\0\x0b\x0c\x7f\x80\xff"));
    }
    comment
}

/// Rows of n columns: single states, rows with dashes and one successor, or rows with dashes that
/// may contradict each other.
fn rows(dice: &mut Dice, n: u32, to_learn: bool) -> Vec<Vec<u8>> {
    let manner = manner(dice);
    let one = successor(dice, n, manner, 0);
    let few = to_learn && n > 6;
    match dice.below(4) {
        0 | 1 => transitions(dice, n)
            .iter()
            .map(|step| row(n, &columns(n, step.state), step.successor))
            .collect(),
        2 => (0..dice.below(6)).map(|_| row(n, &any_columns(dice, n, few), one)).collect(),
        _ => (0..1 + dice.below(5))
            .map(|_| {
                let input = any_columns(dice, n, few);
                let output = if dice.one_in(3) { one } else { successor(dice, n, manner, 0) };
                row(n, &input, output)
            })
            .collect(),
    }
}

fn columns(n: u32, state: u32) -> Vec<u8> {
    (0..n).map(|relay| if state >> relay & 1 == 1 { b'1' } else { b'0' }).collect()
}

/// Input columns, each a dash once in three or, for few states, once in eight.
fn any_columns(dice: &mut Dice, n: u32, few: bool) -> Vec<u8> {
    let state = dice.below(u64::from(state_count(n))) as u32;
    let mut input = columns(n, state);
    for column in &mut input {
        if dice.one_in(if few { 8 } else { 3 }) {
            *column = b'-';
        }
    }
    input
}

pub fn row(n: u32, input: &[u8], successor: u32) -> Vec<u8> {
    [input, b" ", &columns(n, successor)].concat()
}

/// Lines of the kinds that the layout knows, and some that it does not.
const KINDS: [&[u8]; 39] = [
    b".i 2",
    b".o 2",
    b".i 3",
    b".o 3",
    b".i 10",
    b".o 10",
    b".i 1",
    b".o 1",
    b".type fr",
    b".p 1",
    b".p 0",
    b".p 2",
    b"01 10",
    b"0- 11",
    b"-- 00",
    b"1- 01",
    b"-- 01",
    b".e",
    b".end",
    b"",
    b"#",
    b".i 11",
    b".o 0",
    b".p x",
    b".type f",
    b"011 000",
    b"1 0",
    b".ilb a b",
    b".ob a b",
    b".ilb a c",
    b".ilb a",
    b".ob a",
    b".ilb",
    b".ob a a",
    b".phase 11",
    b".i3",
    b"0110",
    b".e 1",
    b"01 1-",
];

pub fn any_lines(dice: &mut Dice, kind: Kind) -> Vec<Vec<u8>> {
    // Headers first, most of the time, so that later lines are judged too.
    let mut lines = Vec::new();
    if dice.one_in(2) {
        lines.extend([b".i 2".to_vec(), b".o 2".to_vec()]);
        lines.extend(type_line(dice, kind).filter(|_| !dice.one_in(4)));
    }
    let count = dice.below(6);
    lines.extend((0..count).map(|_| dice.pick(&KINDS).to_vec()));
    lines
}

pub fn any_bytes(dice: &mut Dice) -> Vec<u8> {
    let near = dice.one_in(2);
    let byte = |dice: &mut Dice| match near {
        true => *dice.pick(b".iopelb01- \t\n#23type fr\r"),
        false => dice.below(256) as u8,
    };
    (0..dice.below(60)).map(|_| byte(dice)).collect()
}

/// Short texts with what is otherwise seldom: two successors, or a rule twice or within another; or
/// a number of rows that is wrong, huge or right only by its last 32 or 64 bits; some of them
/// without a type line.
pub fn contradicting_or_numbered(dice: &mut Dice, kind: Kind) -> Vec<u8> {
    let number = *dice.pick(&[
        "",
        ".p 2\n",
        ".p 3\n",
        ".p 0\n",
        ".p 4294967298\n",
        ".p 18446744073709551618\n",
        ".p 02\n",
        ".p 340282366920938463463374607431768211458\n",
        ".p\n",
        ".p -2\n",
    ]);
    let rows = dice.pick(match kind {
        Kind::Recording => &[
            "01 10\n10 11\n",
            "0- 10\n01 11\n",
            "01 10\n01 11\n",
            "01 10\n01 10\n",
            "01 00\n0- 00\n",
        ],
        Kind::Sheet => &[
            "01 10\n10 01\n",
            "0- 10\n01 10\n",
            "01 10\n01 01\n",
            "01 10\n01 10\n",
            "-- 01\n10 10\n",
        ],
    });
    let end = *dice.pick(&[".e\n", ".e", ".end\n", "", ".e\n\n#x", ".e\n01 10\n"]);
    let typed = match (dice.one_in(8), kind) {
        (true, _) => "",
        (_, Kind::Recording) => ".type fr\n",
        (_, Kind::Sheet) => ".type f\n",
    };
    format!(".i 2\n{number}.o 2\n{typed}{rows}{end}").into_bytes()
}

/// The lines as bytes: blanks between fields and at either end, comments, LF after each line, and
/// after the last one most of the time.
pub fn decorated(dice: &mut Dice, lines: &[Vec<u8>]) -> Vec<u8> {
    let plain = dice.one_in(2);
    let mut text = Vec::new();
    for line in lines {
        if plain {
            text.extend(line);
        } else {
            decorate_line(dice, line, &mut text);
        }
        text.push(b'\n');
    }
    if dice.one_in(4) {
        text.pop();
    }
    text
}

fn decorate_line(dice: &mut Dice, line: &[u8], text: &mut Vec<u8>) {
    if line.starts_with(b"#") {
        text.extend(line);
        return;
    }
    blanks(dice, 0, text);
    for (place, field) in line.split(|byte| *byte == b' ').enumerate() {
        if place > 0 {
            blanks(dice, 1, text);
        }
        text.extend(field);
    }
    blanks(dice, 0, text);
    if dice.one_in(6) {
        text.extend(comment(dice));
    }
}

fn blanks(dice: &mut Dice, least: u64, text: &mut Vec<u8>) {
    let count = if dice.one_in(2) { least } else { least + dice.below(3) };
    text.extend((0..count).map(|_| *dice.pick(b" \t")));
}

/// One change to the lines; the text may still be accepted.
pub fn damage_lines(dice: &mut Dice, lines: &mut Vec<Vec<u8>>) {
    if lines.is_empty() {
        return;
    }
    if dice.one_in(2) && lines.iter().any(|line| is_name_line(line)) {
        return damage_names(dice, lines);
    }
    let (place, other) = (dice.place(lines.len()), dice.place(lines.len()));
    match dice.below(14) {
        0 => {
            lines.remove(place);
        }
        1 => lines.insert(other, lines[place].clone()),
        2 => lines.swap(place, other),
        3 => lines[place] = dice.pick(&KINDS).to_vec(),
        4 => lines.insert(place, dice.pick(&KINDS).to_vec()),
        5 | 6 => change_number(dice, lines),
        7 | 8 => change_row(dice, &mut lines[place]),
        9 => {
            let end = *dice.pick(&[&b".E"[..], b".e x", b".ende", b".e#x", b"e", b". e", b".e."]);
            if let Some(last) = lines.iter_mut().find(|line| line.starts_with(b".e")) {
                *last = end.to_vec();
            }
        }
        10 => lines[place].retain(|byte| *byte != b' '),
        11 => damage_type(dice, lines),
        12 => lines.truncate(place),
        _ => lines.push(dice.pick(&KINDS).to_vec()),
    }
}

/// The type line left out, moved, or changed; if the lines have one.
fn damage_type(dice: &mut Dice, lines: &mut Vec<Vec<u8>>) {
    let Some(place) = lines.iter().position(|line| line.starts_with(b".type")) else {
        return;
    };
    let line = lines.remove(place);
    match dice.below(4) {
        0 => {}
        1 => lines.insert(dice.place(lines.len() + 1), line),
        _ => lines.insert(place, dice.pick(&TYPES).to_vec()),
    }
}

/// The type lines, and lines that are nearly one.
const TYPES: [&[u8]; 13] = [
    b".type f",
    b".type fr",
    b".type f f",
    b".type fd",
    b".type fdr",
    b".type r",
    b".type",
    b".type fr fr",
    b".type f r",
    b".type FR",
    b".Type fr",
    b".typefr",
    b".typ fr",
];

fn is_name_line(line: &[u8]) -> bool {
    line.starts_with(b".ilb") || line.starts_with(b".ob")
}

/// One change to a name line, to how often it stands or where; the lines have one.
fn damage_names(dice: &mut Dice, lines: &mut Vec<Vec<u8>>) {
    let places = (0..lines.len()).filter(|place| is_name_line(&lines[*place]));
    let place = *dice.pick(&places.collect::<Vec<usize>>());
    let other = dice.place(lines.len());
    match dice.below(8) {
        0 => {
            lines.remove(place);
        }
        1 => lines.insert(other, lines[place].clone()),
        2 => {
            let line = lines.remove(place);
            lines.insert(other, line);
        }
        _ => {
            let mut names = fields(&lines[place]);
            let key = names.remove(0);
            change_names(dice, &mut names);
            lines[place] = name_line(&key, &names);
            // Both lines alike, some of the time: then only the names themselves are at fault.
            let both = dice.one_in(3);
            for line in lines.iter_mut().filter(|line| both && is_name_line(line)) {
                *line = name_line(&fields(line)[0], &names);
            }
        }
    }
}

/// The fields of a line that has no needless blanks; at least one.
fn fields(line: &[u8]) -> Vec<Vec<u8>> {
    line.split(|byte| *byte == b' ').map(<[u8]>::to_vec).collect()
}

/// Other names: more or fewer, one of them twice, changed, too long, or with a character that may
/// not stand there.
fn change_names(dice: &mut Dice, names: &mut Vec<Vec<u8>>) {
    if names.is_empty() {
        return names.push(name(dice));
    }
    let (place, other) = (dice.place(names.len()), dice.place(names.len()));
    let at = dice.place(names[place].len().max(1));
    match dice.below(10) {
        0 => names.push(name(dice)),
        1 => {
            names.remove(place);
        }
        2 => names.clear(),
        3 => *names = self::names(dice, MOST_RELAYS as usize + 1),
        4 => names[place] = names[other].clone(),
        5 => names.swap(place, other),
        6 => names[place].resize(LONGEST_NAME + 1, b'x'),
        7 => names[place].insert(at, *dice.pick(b"-./:@[^`{~,\r\0\x0b\x0c\x80\xe9\xff")),
        8 => names[place] = name(dice),
        _ => {
            if let Some(byte) = names[place].get_mut(at) {
                *byte = *dice.pick(b"aAbBzZ09_");
            }
        }
    }
}

/// Another number after `.i`, `.o` or `.p`, or something that is no number.
fn change_number(dice: &mut Dice, lines: &mut [Vec<u8>]) {
    let key = *dice.pick(&[".i", ".o", ".p", ".p"]);
    let huge = "9".repeat(1 + dice.place(60));
    let number = *dice.pick(&[
        "",
        "0",
        "00",
        "1",
        "01",
        "+1",
        "-1",
        "1.",
        "0x1",
        "x",
        "1 1",
        "3",
        "10",
        "11",
        "010",
        "256",
        "65536",
        "4294967296",
        "18446744073709551616",
        &huge,
    ]);
    // With the blank: `.ilb` and `.ob` have names, no number.
    let of_key = |line: &&mut Vec<u8>| line.starts_with(format!("{key} ").as_bytes());
    if let Some(line) = lines.iter_mut().find(of_key) {
        *line = format!("{key} {number}").into_bytes();
    }
}

/// A character of the line changed, added or removed.
fn change_row(dice: &mut Dice, line: &mut Vec<u8>) {
    let byte = *dice.pick(b"01-- 2xX.#\r\0\x0b\x0c\x80\xff\t");
    if line.is_empty() {
        line.push(byte);
        return;
    }
    let place = dice.place(line.len());
    match dice.below(3) {
        0 => line[place] = byte,
        1 => line.insert(place, byte),
        _ => {
            line.remove(place);
        }
    }
}

/// One change to the bytes; the text may still be accepted.
pub fn damage_bytes(dice: &mut Dice, text: &mut Vec<u8>) {
    let any = dice.below(256) as u8;
    let byte = *dice.pick(&[any, b'\n', b'\r', b' ', b'\t', b'#', b'-', b'0', b'1', b'.', 0]);
    let place = dice.place(text.len() + 1);
    match dice.below(6) {
        0 => text.truncate(place),
        1 => text.push(byte),
        2 if place < text.len() => {
            text.remove(place);
        }
        3 if place < text.len() => text[place] = byte,
        4 => {
            // Lines that end at CR and LF.
            if let Some(end) = text.iter().position(|byte| *byte == b'\n') {
                text.insert(end, b'\r');
            }
        }
        _ => text.insert(place, byte),
    }
}

/// The text made longer, to the last length that is read or to the first that is not.
pub fn padded(dice: &mut Dice, text: Vec<u8>) -> Vec<u8> {
    let length = MOST_INPUT + dice.place(2);
    let missing = length.saturating_sub(text.len());
    let padding = match dice.below(3) {
        0 => vec![b'\n'; missing],
        1 => [vec![b'#'; missing.saturating_sub(1)], vec![b'\n']].concat(),
        _ => vec![b' '; missing],
    };
    if dice.one_in(2) {
        [padding, text].concat()
    } else {
        [text, padding].concat()
    }
}
