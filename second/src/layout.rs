//! The layout of a recording text and of a sheet text: which texts are accepted, what they hold and
//! where their names stand, and the line that is faulty in the others.

use std::ops::Range;

use crate::panel::{state_count, Body, Rule, Transition, MOST_RELAYS};

/// How many characters a name may have.
pub const LONGEST_NAME: usize = 16;

/// A text is read as one of two kinds. They differ in what single lines may say, in nothing else.
#[derive(Clone, Copy, Debug, PartialEq, Eq, PartialOrd, Ord)]
pub enum Kind {
    Recording,
    Sheet,
}

impl Kind {
    pub const BOTH: [Kind; 2] = [Kind::Recording, Kind::Sheet];

    /// What stands in the type line that a text of the kind must have.
    fn type_word(self) -> &'static [u8] {
        match self {
            Kind::Recording => b"fr",
            Kind::Sheet => b"f",
        }
    }

    pub fn type_line(self) -> Vec<u8> {
        [b".type ", self.type_word()].concat()
    }

    /// Output characters of a row: a successor, or the one head of a rule.
    fn is_output(self, field: &[u8]) -> bool {
        let ones = field.iter().filter(|byte| **byte == b'1').count();
        is_of(field, b"01") && (self == Kind::Recording || ones == 1)
    }
}

/// What a line says by itself. Whether it may stand where it stands is for `accepted` to say.
#[derive(Clone, Debug, PartialEq, Eq)]
enum Line<'a> {
    Blank,
    /// `.i` with a size from 1 to 10.
    Inputs(u32),
    /// `.o` with a size from 1 to 10.
    Outputs(u32),
    /// `.ilb` with names; how many there must be, the sizes and the other line say.
    InputNames(Vec<&'a [u8]>),
    /// `.ob` with names.
    OutputNames(Vec<&'a [u8]>),
    /// The type line of the kind that the text is read as.
    Type,
    /// `.p` with a number, kept as it is written because it may have any length.
    Rows(&'a [u8]),
    Row(&'a [u8], &'a [u8]),
    /// `.e` or `.end`.
    End,
    Fault,
}

/// What stands between the separators, each with its place.
fn pieces<'a>(bytes: &'a [u8], separators: &[u8]) -> Vec<(usize, &'a [u8])> {
    let mut next = 0;
    let placed = |piece: &'a [u8]| {
        let place = next;
        next += piece.len() + 1;
        (place, piece)
    };
    bytes.split(|byte| separators.contains(byte)).map(placed).collect()
}

/// Lines end at LF, and the last may lack it; a final LF begins no further line.
fn lines(text: &[u8]) -> Vec<(usize, &[u8])> {
    let mut lines = pieces(text, b"\n");
    if lines.last().is_some_and(|(_, last)| last.is_empty()) {
        lines.pop();
    }
    lines
}

/// What stands before the comment, parted at spaces and tabs.
fn fields(line: &[u8]) -> Vec<(usize, &[u8])> {
    let before_comment = line.split(|byte| *byte == b'#').next().unwrap_or_default();
    let mut fields = pieces(before_comment, b" \t");
    fields.retain(|(_, field)| !field.is_empty());
    fields
}

fn line_of(kind: Kind, line: &[u8]) -> Line<'_> {
    let fields: Vec<&[u8]> = fields(line).into_iter().map(|(_, field)| field).collect();
    match fields[..] {
        [] => Line::Blank,
        [b".i", number] => size(number).map_or(Line::Fault, Line::Inputs),
        [b".o", number] => size(number).map_or(Line::Fault, Line::Outputs),
        [b".ilb", ref names @ ..] if are_names(names) => Line::InputNames(names.to_vec()),
        [b".ob", ref names @ ..] if are_names(names) => Line::OutputNames(names.to_vec()),
        [b".type", word] if word == kind.type_word() => Line::Type,
        [b".p", number] if is_number(number) => Line::Rows(number),
        [b".e"] | [b".end"] => Line::End,
        [input, output] if is_of(input, b"01-") && kind.is_output(output) => {
            Line::Row(input, output)
        }
        _ => Line::Fault,
    }
}

fn is_of(field: &[u8], characters: &[u8]) -> bool {
    field.iter().all(|byte| characters.contains(byte))
}

/// Each is a name and differs from the others.
fn are_names(fields: &[&[u8]]) -> bool {
    let differs = |place: usize| !fields[..place].contains(&fields[place]);
    fields.iter().all(|field| is_name(field)) && (0..fields.len()).all(differs)
}

/// 1 to 16 letters, digits or underscores.
fn is_name(field: &[u8]) -> bool {
    let may_stand = |byte: &u8| byte.is_ascii_alphanumeric() || *byte == b'_';
    (1..=LONGEST_NAME).contains(&field.len()) && field.iter().all(may_stand)
}

/// Decimal without leading zeros; 0 itself has none.
fn is_number(field: &[u8]) -> bool {
    is_of(field, b"0123456789") && !field.is_empty() && (field == b"0" || field[0] != b'0')
}

/// A size is written as one of the numbers 1 to 10.
fn size(field: &[u8]) -> Option<u32> {
    (1..=MOST_RELAYS).find(|n| n.to_string().as_bytes() == field)
}

/// The size of an accepted text, the number after `.p` left aside; none if it is not accepted.
fn accepted(lines: &[Line]) -> Option<u32> {
    let end = lines.iter().position(|line| *line == Line::End)?;
    let after_end = &lines[end + 1..];
    let is_row = |line: &Line| matches!(line, Line::Row(..));
    let first_row = lines[..end].iter().position(is_row).unwrap_or(end);
    let (headers, rows) = lines[..end].split_at(first_row);
    let n = only(headers, |line| if let Line::Inputs(n) = line { Some(*n) } else { None })?;
    let m = only(headers, |line| if let Line::Outputs(m) = line { Some(*m) } else { None })?;
    let of_size = |field: &[u8]| field.len() == n as usize;
    let good = n == m
        && named_well(headers, n)
        && headers.iter().all(|line| *line != Line::Fault)
        && headers.iter().filter(|line| **line == Line::Type).count() == 1
        && headers.iter().filter(|line| matches!(line, Line::Rows(_))).count() <= 1
        && rows.iter().all(|line| match line {
            Line::Blank => true,
            Line::Row(input, output) => of_size(input) && of_size(output),
            _ => false,
        })
        && after_end.iter().all(|line| *line == Line::Blank);
    good.then_some(n)
}

/// Both name lines or neither, once each, with n names each, equal name by name.
fn named_well(headers: &[Line], n: u32) -> bool {
    let (mut inputs, mut outputs) = (Vec::new(), Vec::new());
    for line in headers {
        match line {
            Line::InputNames(names) => inputs.push(names),
            Line::OutputNames(names) => outputs.push(names),
            _ => {}
        }
    }
    match (&inputs[..], &outputs[..]) {
        ([], []) => true,
        ([inputs], [outputs]) => inputs == outputs && inputs.len() == n as usize,
        _ => false,
    }
}

/// The one value found, if exactly one line has a value.
fn only(lines: &[Line], value: impl Fn(&Line) -> Option<u32>) -> Option<u32> {
    let values: Vec<u32> = lines.iter().filter_map(value).collect();
    match values[..] {
        [value] => Some(value),
        _ => None,
    }
}

/// The lines begin an accepted text.
///
/// If any lines to follow make an accepted text, then so do no lines at all (the end mark stands
/// already), or else the missing ones of `.i n` and `.o n` for the right n and the type line, the
/// missing one of two name lines if one stands, which must repeat its names, and `.e`: rows and
/// other headers to follow may be left out, and so may both name lines. So these completions are
/// tried, for each n.
fn begins_accepted(lines: &[Line]) -> bool {
    let mut text = lines.to_vec();
    if accepted(&text).is_some() {
        return true;
    }
    completions(lines).iter().any(|completion| {
        text.truncate(lines.len());
        text.extend_from_slice(completion);
        accepted(&text).is_some()
    })
}

/// Every choice of the headers that may be missing, and then the end mark.
fn completions<'a>(lines: &[Line<'a>]) -> Vec<Vec<Line<'a>>> {
    let mut completions = Vec::new();
    let name_line = lines.iter().find_map(other_name_line);
    for n in 1..=MOST_RELAYS {
        let mut headers = vec![Line::Inputs(n), Line::Outputs(n), Line::Type];
        headers.extend(name_line.clone());
        for choice in 0..1 << headers.len() {
            let chosen = |place: &usize| choice >> place & 1 == 1;
            let header = |place: usize| headers[place].clone();
            let mut completion: Vec<Line> = (0..headers.len()).filter(chosen).map(header).collect();
            completion.push(Line::End);
            completions.push(completion);
        }
    }
    completions
}

/// The line that must stand beside a name line.
fn other_name_line<'a>(line: &Line<'a>) -> Option<Line<'a>> {
    match line {
        Line::InputNames(names) => Some(Line::OutputNames(names.clone())),
        Line::OutputNames(names) => Some(Line::InputNames(names.clone())),
        _ => None,
    }
}

/// How many lines from the first on are not faulty.
fn lines_before_fault(lines: &[Line]) -> usize {
    // What begins with lines that begin no accepted text begins none, so halving finds the first.
    let (mut good, mut bad) = (0, lines.len() + 1);
    while bad - good > 1 {
        let middle = (good + bad) / 2;
        if begins_accepted(&lines[..middle]) {
            good = middle;
        } else {
            bad = middle;
        }
    }
    good
}

/// The number of the line, from 1, that stands after this many lines.
fn line_number(lines_before: usize) -> u64 {
    lines_before as u64 + 1
}

/// The size and the lines of a text that the reader of the kind does not refuse with 11; or the
/// faulty line.
fn judged(kind: Kind, text: &[u8]) -> Result<(u32, Vec<Line<'_>>), u64> {
    let lines: Vec<Line> = lines(text).into_iter().map(|(_, line)| line_of(kind, line)).collect();
    let passed = lines_before_fault(&lines);
    // If every line passes and the text is not accepted, the end mark is missing; then the place
    // is the number after the last line, which is what passes plus 1 in either case.
    let whole = accepted(&lines).filter(|_| passed == lines.len());
    let n = whole.ok_or(line_number(passed))?;
    judge_row_number(&lines)?;
    Ok((n, lines))
}

/// What a text records: the size and the words of all rows in order; or the faulty line.
pub fn recording(text: &[u8]) -> Result<(u32, Vec<u32>), u64> {
    let (n, lines) = judged(Kind::Recording, text)?;
    Ok((n, lines.iter().flat_map(|line| row_words(n, line)).collect()))
}

/// What a sheet text lists: the size and the word of each row as written; or the faulty line.
/// Whether the words make a good sheet is not asked.
pub fn rules(text: &[u8]) -> Result<(u32, Vec<u32>), u64> {
    let (n, lines) = judged(Kind::Sheet, text)?;
    Ok((n, lines.iter().filter_map(rule_word).collect()))
}

/// Where the names of a text of the kind stand in it, column by column, as its `.ilb` line has
/// them; none if it has no names; or the faulty line.
pub fn name_places(kind: Kind, text: &[u8]) -> Result<Vec<Range<usize>>, u64> {
    judged(kind, text)?;
    let lines = lines(text);
    let has_names =
        |(_, line): &&(usize, &[u8])| matches!(line_of(kind, line), Line::InputNames(_));
    let Some((start, line)) = lines.iter().find(has_names) else {
        return Ok(Vec::new());
    };
    let place = |(at, name): &(usize, &[u8])| start + at..start + at + name.len();
    Ok(fields(line)[1..].iter().map(place).collect())
}

/// The `.p` number, if there is one, is the number of rows as written.
fn judge_row_number(lines: &[Line]) -> Result<(), u64> {
    let rows = lines.iter().filter(|line| matches!(line, Line::Row(..))).count();
    // Without leading zeros two numbers are equal exactly when they are written alike.
    let written = rows.to_string();
    let disagrees = |line: &Line| matches!(line, Line::Rows(k) if *k != written.as_bytes());
    match lines.iter().position(disagrees) {
        Some(place) => Err(line_number(place)),
        None => Ok(()),
    }
}

/// The words of a row: all matching states in increasing number; none for another line.
fn row_words(n: u32, line: &Line) -> Vec<u32> {
    let Line::Row(input, output) = line else {
        return Vec::new();
    };
    let successor = (0..state_count(n)).find(|state| matches_columns(output, *state));
    let successor = successor.expect("an output without dashes matches one state");
    let states = (0..state_count(n)).filter(|state| matches_columns(input, *state));
    states.map(|state| Transition { state, successor }.word()).collect()
}

/// The word of a sheet's row: `1` for P, `0` for N, and the head at the output's `1`; none for
/// another line.
fn rule_word(line: &Line) -> Option<u32> {
    let Line::Row(input, output) = line else {
        return None;
    };
    let body = Body { on: columns_with(b'1', input), off: columns_with(b'0', input) };
    let head = output.iter().position(|column| *column == b'1');
    let head = head.expect("the output of a sheet's row has a head") as u32;
    Some(Rule { head, body }.word())
}

/// The mask of the columns with a character.
fn columns_with(character: u8, columns: &[u8]) -> u32 {
    (0..columns.len()).filter(|relay| columns[*relay] == character).map(|relay| 1 << relay).sum()
}

/// Column 0, the leftmost, is relay 0.
fn matches_columns(columns: &[u8], state: u32) -> bool {
    columns.iter().enumerate().all(|(relay, column)| match column {
        b'1' => state >> relay & 1 == 1,
        b'0' => state >> relay & 1 == 0,
        _ => true,
    })
}

#[cfg(test)]
mod tests {
    use super::*;

    #[test]
    fn a_final_line_feed_begins_no_line() {
        assert_eq!(lines(b"").len(), 0);
        assert_eq!(lines(b"\n").len(), 1);
        assert_eq!(lines(b"a").len(), 1);
        assert_eq!(lines(b"a\n").len(), 1);
        assert_eq!(lines(b"a\n\n").len(), 2);
        assert_eq!(lines(b"\na").len(), 2);
    }

    fn recording_line(line: &[u8]) -> Line<'_> {
        line_of(Kind::Recording, line)
    }

    #[test]
    fn lines_by_themselves() {
        assert_eq!(recording_line(b" \t # .i 3"), Line::Blank);
        assert_eq!(recording_line(b"\t.i  3 #x"), Line::Inputs(3));
        assert_eq!(recording_line(b".i 3#x"), Line::Inputs(3));
        assert_eq!(recording_line(b".o 10"), Line::Outputs(10));
        assert_eq!(recording_line(b".e#x"), Line::End);
        assert_eq!(recording_line(b" .end "), Line::End);
        assert_eq!(recording_line(b".type\tfr"), Line::Type);
        assert_eq!(recording_line(b".p 0"), Line::Rows(b"0"));
        assert_eq!(recording_line(b".p 10"), Line::Rows(b"10"));
        assert_eq!(recording_line(b"1-0 010"), Line::Row(b"1-0", b"010"));
        assert_eq!(recording_line(b" .ilb\ta  B_0#c"), Line::InputNames(vec![b"a", b"B_0"]));
        assert_eq!(recording_line(b".ob 0 1 2"), Line::OutputNames(vec![b"0", b"1", b"2"]));
        assert_eq!(recording_line(b".ob#a"), Line::OutputNames(vec![]));
        assert_eq!(recording_line(b"#\r\0\x0b\x0c\xff"), Line::Blank);
    }

    #[test]
    fn lines_that_are_faults_by_themselves() {
        let faults: [&[u8]; 34] = [
            b".i3",
            b".i",
            b".i 0",
            b".i 03",
            b".i 11",
            b".i +3",
            b".i 3 3",
            b".o x",
            b".type f",
            b".type",
            b".typefr",
            b".p",
            b".p 01",
            b".p 00",
            b".p +1",
            b".p x",
            b".p 1 1",
            b".e x",
            b".E",
            b"111110",
            b"111 1-0",
            b"111 110 1",
            b"111 110\r",
            b"\0",
            b".ilb a a",
            b".ob a b a",
            b".ilb abcdefghijklmnopq",
            b".ilb a-b",
            b".ob a.b",
            b".ob a\xe9",
            b".ilb a,b",
            b".ilba b",
            b".ILB a",
            b".ob a b\r",
        ];
        for fault in faults {
            assert_eq!(recording_line(fault), Line::Fault, "{:?}", String::from_utf8_lossy(fault));
        }
    }

    #[test]
    fn lines_of_a_sheet_by_themselves() {
        let sheet_line = |line| line_of(Kind::Sheet, line);
        assert_eq!(sheet_line(b"\t.type  f#r"), Line::Type);
        assert_eq!(sheet_line(b".type f#"), Line::Type);
        assert_eq!(sheet_line(b" 1-0\t010 # 1"), Line::Row(b"1-0", b"010"));
        assert_eq!(sheet_line(b"- 1"), Line::Row(b"-", b"1"));
        // The length of either part is for the sizes to say.
        assert_eq!(sheet_line(b"1-0 01"), Line::Row(b"1-0", b"01"));
        let faults: [&[u8]; 13] = [
            b".type fr",
            b".type",
            b".type f f",
            b".type F",
            b".typef",
            b".type fd",
            b"1-0 000",
            b"1-0 011",
            b"1-0 111",
            b"1-0 -10",
            b"1-0 01-",
            b"1-2 010",
            b"1-0 012",
        ];
        for fault in faults {
            assert_eq!(sheet_line(fault), Line::Fault, "{:?}", String::from_utf8_lossy(fault));
        }
        let alike: [&[u8]; 9] =
            [b"", b"# x", b".i 3", b".o 10", b".p 0", b".ilb a b", b".ob a", b".e", b".end#"];
        for line in alike {
            assert_eq!(sheet_line(line), recording_line(line));
        }
    }

    #[test]
    fn places_of_names() {
        let text = b"# x\n.ob a Bc\n \t.ilb  a\tBc#c\n.i 2\n.o 2\n.type fr\n.e";
        assert_eq!(name_places(Kind::Recording, text), Ok(vec![21..22, 23..25]));
        assert_eq!((&text[21..22], &text[23..25]), (&b"a"[..], &b"Bc"[..]));
        assert_eq!(name_places(Kind::Recording, b".i 2\n.o 2\n.type fr\n.e"), Ok(vec![]));
        assert_eq!(name_places(Kind::Recording, b".ilb a\n.i 1\n.o 1\n.type fr\n.e"), Err(5));
        assert_eq!(name_places(Kind::Recording, b".ilb a\n.ob a\n.i 1\n.o 1\n.e"), Err(5));
    }

    /// What the headers so far have said.
    #[derive(Default)]
    struct Headers<'a> {
        sizes: [Option<usize>; 2],
        names: [Option<Vec<&'a [u8]>>; 2],
        typed: bool,
        numbered: bool,
    }

    impl<'a> Headers<'a> {
        /// A line of so many relays agrees with all sizes and names before it.
        fn agree(&self, relays: usize) -> bool {
            let said = self.sizes.iter().flatten().copied();
            let named = self.names.iter().flatten().map(Vec::len);
            said.chain(named).all(|other| other == relays)
        }

        fn size(&mut self, which: usize, n: u32) -> bool {
            let passes = self.agree(n as usize) && self.sizes[which].is_none();
            self.sizes[which] = Some(n as usize);
            passes
        }

        fn name(&mut self, which: usize, names: &[&'a [u8]]) -> bool {
            let passes = self.agree(names.len())
                && (1..=10).contains(&names.len())
                && self.names[which].is_none()
                && self.names.iter().flatten().all(|other| other == names);
            self.names[which] = Some(names.to_vec());
            passes
        }

        /// A row or the end mark may stand after them.
        fn whole(&self) -> bool {
            self.typed
                && self.sizes.iter().all(Option::is_some)
                && self.names[0].is_some() == self.names[1].is_some()
        }
    }

    /// The layout once more, as one walk from the first line to the last.
    fn walk(lines: &[Line]) -> Result<u32, usize> {
        let mut headers = Headers::default();
        let (mut rows, mut ended) = (false, false);
        for (place, line) in lines.iter().enumerate() {
            let passes = match line {
                Line::Blank => true,
                Line::Fault => false,
                _ if ended => false,
                Line::Row(input, output) => {
                    rows = true;
                    headers.whole() && headers.agree(input.len()) && headers.agree(output.len())
                }
                Line::End => {
                    ended = true;
                    headers.whole()
                }
                _ if rows => false,
                Line::Inputs(n) => headers.size(0, *n),
                Line::Outputs(n) => headers.size(1, *n),
                Line::InputNames(names) => headers.name(0, names),
                Line::OutputNames(names) => headers.name(1, names),
                Line::Type => !std::mem::replace(&mut headers.typed, true),
                Line::Rows(_) => !std::mem::replace(&mut headers.numbered, true),
            };
            if !passes {
                return Err(place);
            }
        }
        headers.sizes[0].filter(|_| ended).map(|n| n as u32).ok_or(lines.len())
    }

    /// The definition of a faulty line and the walk agree on all texts that begin with a head and
    /// have at most so many lines after it.
    fn agree_up_to(longest: u32, head: &[Line], alphabet: &[Line]) {
        let sizes = alphabet.len();
        for length in 0..=longest {
            for number in 0..sizes.pow(length) {
                let line = |place| alphabet[number / sizes.pow(place) % sizes].clone();
                let text: Vec<Line> = head.iter().cloned().chain((0..length).map(line)).collect();
                let passed = lines_before_fault(&text);
                let found = accepted(&text).filter(|_| passed == text.len()).ok_or(passed);
                assert_eq!(found, walk(&text), "{text:?}");
            }
        }
    }

    #[test]
    fn the_definition_of_a_faulty_line_and_the_walk_agree() {
        let lines = [
            Line::Blank,
            Line::Inputs(1),
            Line::Inputs(2),
            Line::Outputs(1),
            Line::Outputs(2),
            Line::Type,
            Line::Rows(b"1"),
            Line::Row(b"1", b"0"),
            Line::Row(b"1", b"01"),
            Line::Row(b"1-", b"01"),
            Line::End,
            Line::Fault,
        ];
        agree_up_to(4, &[], &lines);
        agree_up_to(4, &[Line::Type], &lines);
    }

    #[test]
    fn the_definition_of_a_faulty_line_and_the_walk_agree_on_the_type_line() {
        let lines = [
            Line::Inputs(1),
            Line::Outputs(1),
            Line::Type,
            Line::Rows(b"0"),
            Line::Row(b"1", b"0"),
            Line::End,
        ];
        agree_up_to(6, &[], &lines);
        let named = [Line::InputNames(vec![b"a"]), Line::OutputNames(vec![b"a"])];
        agree_up_to(5, &named, &lines);
    }

    #[test]
    fn the_definition_of_a_faulty_line_and_the_walk_agree_with_names() {
        let lines = [
            Line::Inputs(1),
            Line::Outputs(1),
            Line::Outputs(2),
            Line::InputNames(vec![b"a"]),
            Line::OutputNames(vec![b"a"]),
            Line::OutputNames(vec![b"b"]),
            Line::InputNames(vec![b"a", b"b"]),
            Line::OutputNames(vec![b"a", b"b"]),
            Line::Row(b"1", b"0"),
            Line::End,
        ];
        agree_up_to(4, &[], &lines);
        agree_up_to(5, &[Line::Type], &lines);
        let letters: Vec<&[u8]> = b"abcdefghijk".chunks(1).collect();
        let at_the_edge = [
            Line::InputNames(vec![]),
            Line::InputNames(letters[..10].to_vec()),
            Line::OutputNames(letters[..10].to_vec()),
            Line::OutputNames(letters),
            Line::Inputs(10),
            Line::Outputs(10),
            Line::End,
        ];
        agree_up_to(5, &[Line::Type], &at_the_edge);
    }
}
