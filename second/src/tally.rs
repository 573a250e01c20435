//! How many cases of each call and outcome a stream of requests and answers holds.

use std::collections::BTreeMap;
use std::io::{self, Read};

use crate::calls::{BAD_LAYOUT, DONE};
use crate::desk::{
    next_request, next_word, shape_of, Next, Request, APPLY, FRESH, JOIN, LEARN, LOOKUP, READ,
    READ_SHEET, RUN, SESSION_START, SESSION_TAKE, SHAPES, TAKE, WRITE,
};
use crate::layout::{name_places, recording, rules, Kind};
use crate::sheets::is_good_sheet;
use crate::text::{found, NoName};

/// How a call ended.
#[derive(Clone, Copy, Debug, PartialEq, Eq, PartialOrd, Ord)]
pub enum Outcome {
    Code(u64),
    /// Write, run and read sheet: done, and the sheet has name lines; done without them is code 0.
    Named,
    /// Read, run and read sheet: code 11 for want of the type line alone, so that the first row is
    /// faulty, or the end mark of a text without rows; any other 11 is code 11.
    UntypedRow,
    UntypedEnd,
    /// Run alone: the refusal line is longer than `out`, the length is 0.
    NoRoomForLine,
    /// Lookup alone: a part of the panel's text, of the maker's, or the empty part, and why.
    PanelName(Source),
    MakerName(Source),
    Empty(NoName),
}

/// What kind of text a name was found in.
#[derive(Clone, Copy, Debug, PartialEq, Eq, PartialOrd, Ord)]
pub enum Source {
    Recording,
    GoodSheet,
    /// A sheet text whose rules make no good sheet.
    OtherSheet,
}

/// The codes that can occur in a call.
///
/// Code 10 stands nowhere: the sheet of a book reproduces the book, so learn's check of itself
/// never fails. A state booked with bit h on is not negative for h, so its own full body is
/// consistent for h, and some prime body within it covers the state; a state booked with bit h
/// off is negative for h and no prime body covers it. In run neither 2 nor 6 can occur, because
/// reading gives only sizes and words that are valid.
fn codes_of(call: u64) -> &'static [u64] {
    match call {
        FRESH | SESSION_START => &[0, 2, 9],
        TAKE | SESSION_TAKE => &[0, 1, 2, 3, 4, 5, 6, 7, 8, 9],
        LEARN => &[0, 2, 6, 7, 8, 9],
        JOIN => &[0, 2, 3, 4, 5, 7, 8, 9],
        APPLY => &[0, 2, 3, 5, 6],
        READ => &[0, 8, 11],
        WRITE => &[0, 2, 3, 5, 12],
        RUN => &[0, 7, 8, 9, 11, 12, 13],
        LOOKUP => &[],
        READ_SHEET => &[0, 5, 8, 11],
        _ => unreachable!("a shape has one of these calls"),
    }
}

/// The other outcomes that can occur in a call.
fn others_of(call: u64) -> &'static [Outcome] {
    match call {
        READ => &[Outcome::UntypedRow, Outcome::UntypedEnd],
        WRITE => &[Outcome::Named],
        RUN => &[Outcome::Named, Outcome::UntypedRow, Outcome::UntypedEnd, Outcome::NoRoomForLine],
        LOOKUP => &[
            Outcome::PanelName(Source::Recording),
            Outcome::PanelName(Source::GoodSheet),
            Outcome::PanelName(Source::OtherSheet),
            Outcome::MakerName(Source::Recording),
            Outcome::MakerName(Source::GoodSheet),
            Outcome::MakerName(Source::OtherSheet),
            Outcome::Empty(NoName::BadPanel),
            Outcome::Empty(NoName::AbovePanel),
            Outcome::Empty(NoName::BadMaker),
            Outcome::Empty(NoName::Neither),
            Outcome::Empty(NoName::AboveMaker),
        ],
        READ_SHEET => &[Outcome::Named, Outcome::UntypedRow, Outcome::UntypedEnd],
        _ => &[],
    }
}

/// Every outcome that can occur, call by call.
pub fn targets() -> Vec<(u64, Outcome)> {
    let mut targets = Vec::new();
    for shape in &SHAPES {
        targets.extend(codes_of(shape.call).iter().map(|code| (shape.call, Outcome::Code(*code))));
        targets.extend(others_of(shape.call).iter().map(|other| (shape.call, *other)));
    }
    targets
}

/// How the call ended, by its answer; none if the answer is one that no call gives.
pub fn outcome_of(request: &Request, answer: &[u64]) -> Option<Outcome> {
    let outcome = match (request.shape.call, answer) {
        (RUN, [length, ..]) => printed_outcome(&printed(request, answer, *length)?),
        (WRITE, [DONE, _, _, _, _, _, length, ..]) => {
            printed_outcome(&printed(request, answer, *length)?)
        }
        (LOOKUP, _) => looked_up(request, answer),
        _ => answer.first().map(|code| Outcome::Code(*code)),
    };
    let kind = match request.shape.call {
        READ | RUN => Kind::Recording,
        READ_SHEET => Kind::Sheet,
        _ => return outcome,
    };
    // The first slice of all three is the text.
    let text = request.lent_bytes(0);
    match (kind, outcome) {
        (_, Some(Outcome::Code(BAD_LAYOUT))) => untyped(kind, &text).or(outcome),
        (Kind::Sheet, Some(Outcome::Code(DONE))) => {
            let names = name_places(kind, &text).ok()?;
            Some(if names.is_empty() { Outcome::Code(DONE) } else { Outcome::Named })
        }
        _ => outcome,
    }
}

/// The outcome of a text that breaks the layout for want of the type line alone: with the line put
/// before it, it is read.
fn untyped(kind: Kind, text: &[u8]) -> Option<Outcome> {
    let typed = [&kind.type_line(), &b"\n"[..], text].concat();
    let (_, words) = match kind {
        Kind::Recording => recording(&typed),
        Kind::Sheet => rules(&typed),
    }
    .ok()?;
    Some(if words.is_empty() { Outcome::UntypedEnd } else { Outcome::UntypedRow })
}

/// So many bytes of the last slice of a request, as they are in its answer.
fn printed(request: &Request, answer: &[u64], length: u64) -> Option<Vec<u8>> {
    let room = request.slices.last()?.len();
    let out = answer.get(answer.len().checked_sub(room)?..)?;
    let text = out.get(..usize::try_from(length).ok()?)?;
    Some(text.iter().map(|byte| *byte as u8).collect())
}

/// Whose name the answer is; if it is the empty part, the request says why.
fn looked_up(request: &Request, answer: &[u64]) -> Option<Outcome> {
    match answer {
        [0, 0, 0] => {
            let (panel, maker) = (request.lent_bytes(0), request.lent_bytes(1));
            found(request.numbers[0], &panel, &maker).err().map(Outcome::Empty)
        }
        [0, _, length] if *length > 0 => source(&request.lent_bytes(0)).map(Outcome::PanelName),
        [1, _, length] if *length > 0 => source(&request.lent_bytes(1)).map(Outcome::MakerName),
        _ => None,
    }
}

/// The kind of a text; none if it is bad, so that no name can have been found in it.
fn source(text: &[u8]) -> Option<Source> {
    if recording(text).is_ok() {
        return Some(Source::Recording);
    }
    let (n, mut words) = rules(text).ok()?;
    words.sort_unstable();
    Some(if is_good_sheet(n, &words) { Source::GoodSheet } else { Source::OtherSheet })
}

/// How the program ended, or a write that is done, by what it printed.
pub fn printed_outcome(printed: &[u8]) -> Option<Outcome> {
    if printed.is_empty() {
        return Some(Outcome::NoRoomForLine);
    }
    let text = std::str::from_utf8(printed).ok()?;
    if text.starts_with(".i ") {
        let named = text.lines().any(|line| line.starts_with(".ilb "));
        return Some(if named { Outcome::Named } else { Outcome::Code(DONE) });
    }
    let code = text.strip_prefix("refused ")?.split(' ').next()?;
    code.parse().ok().map(Outcome::Code)
}

/// The counted cases of a stream.
#[derive(Default)]
pub struct Tally {
    counts: BTreeMap<(u64, Outcome), u64>,
    cases: u64,
    /// What is wrong with the streams themselves.
    faults: Vec<String>,
}

impl Tally {
    /// Counts every request with its answer.
    pub fn of_streams(requests: &mut impl Read, answers: &mut impl Read) -> io::Result<Tally> {
        let mut tally = Tally::default();
        loop {
            match next_request(requests)? {
                Next::Request(request) => match next_answer(&request, answers)? {
                    Some(answer) => tally.count(&request, &answer),
                    None => {
                        let number = tally.cases + 1;
                        tally.faults.push(format!("the answers end within answer {number}"));
                        return Ok(tally);
                    }
                },
                Next::Malformed => {
                    let number = tally.cases + 1;
                    tally.faults.push(format!("request {number} is malformed"));
                    return Ok(tally);
                }
                Next::End => {
                    if answers.take(1).read_to_end(&mut Vec::new())? != 0 {
                        tally.faults.push("answers follow the last request's".to_string());
                    }
                    return Ok(tally);
                }
            }
        }
    }

    pub fn count(&mut self, request: &Request, answer: &[u64]) {
        self.cases += 1;
        match outcome_of(request, answer) {
            Some(outcome) => *self.counts.entry((request.shape.call, outcome)).or_default() += 1,
            None => {
                let (call, number) = (name(request.shape.call), self.cases);
                self.faults.push(format!("answer {number} is none that {call} gives"));
            }
        }
    }

    /// What keeps the tally from passing: faults of the streams, outcomes that can occur and were
    /// never reached, and outcomes reached that cannot occur.
    pub fn failures(&self) -> Vec<String> {
        self.failures_but(None)
    }

    /// The same where no case of one call is expected.
    pub fn failures_but(&self, skipped: Option<u64>) -> Vec<String> {
        let mut targets = targets();
        targets.retain(|(call, _)| Some(*call) != skipped);
        let mut failures = self.faults.clone();
        for (call, outcome) in &targets {
            if !self.counts.contains_key(&(*call, *outcome)) {
                failures.push(format!("{}: {} was never reached", name(*call), label(*outcome)));
            }
        }
        for reached in self.counts.keys().filter(|reached| !targets.contains(reached)) {
            failures.push(format!("{}: {} cannot occur", name(reached.0), label(reached.1)));
        }
        failures
    }

    /// One line for each call: how many cases of each outcome.
    pub fn table(&self) -> String {
        let mut table = String::new();
        for shape in &SHAPES {
            let of_call = self.counts.iter().filter(|((call, _), _)| *call == shape.call);
            let cases: u64 = of_call.clone().map(|(_, count)| count).sum();
            let parts: Vec<String> = of_call
                .map(|((_, outcome), count)| format!("{}: {count}", label(*outcome)))
                .collect();
            table += &format!("{:<14}{cases:>8}  {}\n", shape.name, parts.join(", "));
        }
        table += &format!("{:<14}{:>8}\n", "all", self.cases);
        table += "code 10 is expected nowhere: the sheet of a book reproduces it (codes_of)\n";
        table
    }
}

fn next_answer(request: &Request, answers: &mut impl Read) -> io::Result<Option<Vec<u64>>> {
    (0..request.answer_length()).map(|_| next_word(answers)).collect()
}

fn name(call: u64) -> &'static str {
    shape_of(call).map_or("?", |shape| shape.name)
}

fn label(outcome: Outcome) -> String {
    match outcome {
        Outcome::Code(code) => format!("code {code}"),
        Outcome::Named => "code 0 with names".to_string(),
        Outcome::UntypedRow => "code 11 at a row without type".to_string(),
        Outcome::UntypedEnd => "code 11 at an end without type".to_string(),
        Outcome::NoRoomForLine => "no room for the line".to_string(),
        Outcome::PanelName(source) => format!("panel's name ({})", source_label(source)),
        Outcome::MakerName(source) => format!("maker's name ({})", source_label(source)),
        Outcome::Empty(why) => format!("empty ({})", reason(why)),
    }
}

fn source_label(source: Source) -> &'static str {
    match source {
        Source::Recording => "a recording's",
        Source::GoodSheet => "a good sheet's",
        Source::OtherSheet => "a sheet's that is not good",
    }
}

fn reason(why: NoName) -> &'static str {
    match why {
        NoName::BadPanel => "panel's text bad",
        NoName::AbovePanel => "no column of the panel's text",
        NoName::BadMaker => "maker's text bad",
        NoName::Neither => "neither has names",
        NoName::AboveMaker => "no column of the maker's text",
    }
}
