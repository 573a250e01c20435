//! Recording text in, sheet text in and out, names looked up, and the program's text in, text out.

use std::ops::Range;

use crate::calls::{
    fill, in_use, judge_panel, learn, require, room, Answer, BAD_LAYOUT, BAD_SHEET, BOOK_FULL,
    COUNT_ABOVE_SLICE, DONE, INPUT_TOO_LONG, TEXT_TOO_LONG,
};
use crate::layout::{name_places, recording, rules, Kind};
use crate::panel::Rule;
use crate::sheets::is_good_sheet;

/// The program refuses a longer input.
pub const MOST_INPUT: usize = 24_576;

/// The program's room for list, book and sheet words, each.
pub const PROGRAM_WORDS: usize = 1_024;

/// The program's room for bytes out.
pub const PROGRAM_BYTES: usize = 24_576;

/// What reading answers.
#[derive(Clone, Copy, Debug, Default, PartialEq, Eq)]
pub struct Reading {
    pub code: u64,
    pub place: u64,
    pub n: u32,
    pub count: u64,
}

/// The size of a panel and some words of it; or a code and its place.
type Words = Result<(u32, Vec<u32>), (u64, u64)>;

/// Reads a recording into a list of words.
pub fn read(text: &[u8], list: &mut [u32]) -> Reading {
    left_in(list, read_words(text, room(list)))
}

/// Reads a sheet text into the words of its rules, in increasing order.
pub fn read_sheet(text: &[u8], sheet: &mut [u32]) -> Reading {
    left_in(sheet, read_rules(text, room(sheet)))
}

/// What a reader leaves in its slice, and answers.
fn left_in(slice: &mut [u32], words: Words) -> Reading {
    match words {
        Err((code, place)) => {
            slice.fill(0);
            Reading { code, place, n: 0, count: 0 }
        }
        Ok((n, words)) => {
            fill(slice, &words);
            Reading { code: DONE, place: 0, n, count: room(&words) }
        }
    }
}

fn read_words(text: &[u8], list_room: u64) -> Words {
    let (n, words) = recording(text).map_err(|line| (BAD_LAYOUT, line))?;
    require(room(&words) <= list_room, BOOK_FULL).map_err(|code| (code, 0))?;
    Ok((n, words))
}

fn read_rules(text: &[u8], sheet_room: u64) -> Words {
    let (n, mut words) = rules(text).map_err(|line| (BAD_LAYOUT, line))?;
    // Every row as written needs a word, one that stands twice as well.
    require(room(&words) <= sheet_room, BOOK_FULL).map_err(|code| (code, 0))?;
    words.sort_unstable();
    require(is_good_sheet(n, &words), BAD_SHEET).map_err(|code| (code, 0))?;
    Ok((n, words))
}

/// A part of one of the two texts that are lent to a lookup; by default the empty part at the
/// start of the panel's.
#[derive(Clone, Copy, Debug, Default, PartialEq, Eq)]
pub struct Part {
    /// Of the maker's text, not of the panel's.
    pub of_maker: bool,
    pub start: usize,
    pub length: usize,
}

impl Part {
    pub fn bytes<'a>(self, panel: &'a [u8], maker: &'a [u8]) -> &'a [u8] {
        let text = if self.of_maker { maker } else { panel };
        &text[self.start..self.start + self.length]
    }
}

/// Why a lookup hands back the empty part.
#[derive(Clone, Copy, Debug, PartialEq, Eq, PartialOrd, Ord)]
pub enum NoName {
    /// Both readers would refuse the panel's text with 11.
    BadPanel,
    /// The panel's text has names, and the column is not below its n.
    AbovePanel,
    /// The panel's text has no names, and both readers would refuse the maker's with 11.
    BadMaker,
    /// Neither text has names.
    Neither,
    /// The panel's text has no names, and the column is not below the n of the maker's.
    AboveMaker,
}

/// The name of a column as a part of the panel's text, or else of the maker's; else the empty part.
pub fn lookup(column: u64, panel: &[u8], maker: &[u8]) -> Part {
    found(column, panel, maker).unwrap_or_default()
}

/// The name of a column, or why there is none. The maker's text is consulted only if the panel's
/// has no names: whatever it holds otherwise does no harm.
pub fn found(column: u64, panel: &[u8], maker: &[u8]) -> Result<Part, NoName> {
    let own = names_in(panel).ok_or(NoName::BadPanel)?;
    let (of_maker, names, above) = if own.is_empty() {
        (true, names_in(maker).ok_or(NoName::BadMaker)?, NoName::AboveMaker)
    } else {
        (false, own, NoName::AbovePanel)
    };
    if names.is_empty() {
        return Err(NoName::Neither);
    }
    // A text with names has as many as relays.
    let name = usize::try_from(column).ok().and_then(|column| names.get(column)).ok_or(above)?;
    Ok(Part { of_maker, start: name.start, length: name.len() })
}

/// Where the names of a text stand, whichever kind it is of; nothing if it is bad, that is if both
/// readers would refuse it with 11. What else they would refuse it with does no harm.
fn names_in(text: &[u8]) -> Option<Vec<Range<usize>>> {
    Kind::BOTH.into_iter().find_map(|kind| name_places(kind, text).ok())
}

/// Writes a sheet, with names if the two texts have one for every column; the answer and the
/// length of the text.
pub fn write(
    n: u32,
    count: u64,
    sheet: &[u32],
    panel: &[u8],
    maker: &[u8],
    out: &mut [u8],
) -> (Answer, u64) {
    match written(n, count, sheet, panel, maker, room(out)) {
        Err(code) => (Answer::bare(code), 0),
        Ok(text) => {
            out[..text.len()].copy_from_slice(text.as_bytes());
            (Answer::bare(DONE), text.len() as u64)
        }
    }
}

fn written(
    n: u32,
    count: u64,
    sheet: &[u32],
    panel: &[u8],
    maker: &[u8],
    out_room: u64,
) -> Result<String, u64> {
    judge_panel(n)?;
    let sheet = in_use(sheet, count).ok_or(COUNT_ABOVE_SLICE)?;
    require(is_good_sheet(n, sheet), BAD_SHEET)?;
    let text = sheet_text(n, sheet, panel, maker);
    require(text.len() as u64 <= out_room, TEXT_TOO_LONG)?;
    Ok(text)
}

/// The text of a good sheet.
pub fn sheet_text(n: u32, sheet: &[u32], panel: &[u8], maker: &[u8]) -> String {
    let mut text = format!(".i {n}\n.o {n}\n{}", name_lines(n, panel, maker));
    text.push_str(&format!(".type f\n.p {}\n", sheet.len()));
    for word in sheet {
        let rule = Rule::from_word(n, *word).expect("a valid rule word");
        text.push_str(&rule_row(n, rule));
    }
    text.push_str(".e\n");
    text
}

/// Both name lines if every column has a name, else neither.
fn name_lines(n: u32, panel: &[u8], maker: &[u8]) -> String {
    let name = |column: u32| {
        let name = lookup(u64::from(column), panel, maker).bytes(panel, maker);
        (!name.is_empty()).then(|| String::from_utf8_lossy(name))
    };
    match (0..n).map(name).collect::<Option<Vec<_>>>() {
        Some(names) => format!(".ilb {0}\n.ob {0}\n", names.join(" ")),
        None => String::new(),
    }
}

fn rule_row(n: u32, rule: Rule) -> String {
    let contact = |relay: u32| match (rule.body.on >> relay & 1, rule.body.off >> relay & 1) {
        (1, _) => '1',
        (_, 1) => '0',
        _ => '-',
    };
    let lamp = |relay: u32| if relay == rule.head { '1' } else { '0' };
    let input: String = (0..n).map(contact).collect();
    let output: String = (0..n).map(lamp).collect();
    format!("{input} {output}\n")
}

/// The program on lent slices; the length of what it prints.
///
/// A refusal line that does not fit is not written, and the length is 0. In the program itself
/// everything fits.
pub fn run(
    input: &[u8],
    list: &mut [u32],
    book: &mut [u32],
    sheet: &mut [u32],
    out: &mut [u8],
) -> u64 {
    match printed(input, list, book, sheet, out) {
        Ok(length) => length,
        Err((code, place)) => {
            let line = format!("refused {code} at {place}\n");
            match out.get_mut(..line.len()) {
                Some(part) => part.copy_from_slice(line.as_bytes()),
                None => return 0,
            }
            line.len() as u64
        }
    }
}

fn printed(
    input: &[u8],
    list: &mut [u32],
    book: &mut [u32],
    sheet: &mut [u32],
    out: &mut [u8],
) -> Result<u64, (u64, u64)> {
    require(input.len() <= MOST_INPUT, INPUT_TOO_LONG).map_err(|code| (code, 0))?;
    let Reading { code, place, n, count } = read(input, list);
    require(code == DONE, code).map_err(|code| (code, place))?;
    // The first count words alone: the zeros after them would be the transition 0 to 0.
    let words = in_use(list, count).expect("reading counts words of the list");
    let learning = learn(n, words, book, sheet);
    require(learning.code == DONE, learning.code).map_err(|code| (code, learning.place))?;
    // The program's input is the panel's own text, and there is no maker's.
    let (writing, length) = write(n, learning.sheet_count, sheet, input, b"", out);
    require(writing.code == DONE, writing.code).map_err(|code| (code, writing.place))?;
    Ok(length)
}

/// The whole program: what it prints for an input.
pub fn rulesheet(input: &[u8]) -> Vec<u8> {
    let mut words = [[0; PROGRAM_WORDS]; 3];
    let [list, book, sheet] = &mut words;
    let mut out = vec![0; PROGRAM_BYTES];
    let length = run(input, list, book, sheet, &mut out);
    out.truncate(length as usize);
    out
}
