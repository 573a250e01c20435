//! Requests and answers as 64-bit little-endian words; docs/DESK.md writes the format down.

use std::io::{self, Read, Write};

use crate::calls::{self, Answer, Lent};
use crate::session::{self, Session};
use crate::text::{self, Part, Reading};

/// What a field of a request may hold.
#[derive(Clone, Copy, Debug, PartialEq, Eq)]
pub enum Width {
    Byte,
    Word,
    Count,
}

impl Width {
    pub fn most(self) -> u64 {
        match self {
            Width::Byte => u64::from(u8::MAX),
            Width::Word => u64::from(u32::MAX),
            Width::Count => u64::MAX,
        }
    }

    /// How many elements a slice may have.
    pub fn longest(self) -> u64 {
        match self {
            Width::Byte => MOST_BYTES,
            Width::Word | Width::Count => MOST_WORDS,
        }
    }
}

/// A lent slice of a call.
#[derive(Clone, Copy, Debug)]
pub struct Slice {
    pub width: Width,
    pub mutable: bool,
}

/// The fields of a call's requests and answers.
#[derive(Debug)]
pub struct Shape {
    pub call: u64,
    pub name: &'static str,
    pub numbers: &'static [Width],
    pub slices: &'static [Slice],
    /// How many numbers the answer has before the slices.
    pub answers: usize,
}

/// No lent slice of words, or of bytes, is longer, so that a desk may keep fixed room.
pub const MOST_WORDS: u64 = 65_536;
pub const MOST_BYTES: u64 = 2_097_152;

pub const FRESH: u64 = 1;
pub const TAKE: u64 = 2;
pub const LEARN: u64 = 3;
pub const JOIN: u64 = 4;
pub const APPLY: u64 = 5;
pub const SESSION_START: u64 = 6;
pub const SESSION_TAKE: u64 = 7;
pub const READ: u64 = 8;
pub const WRITE: u64 = 9;
pub const RUN: u64 = 10;
pub const LOOKUP: u64 = 11;
pub const READ_SHEET: u64 = 12;

const W: Width = Width::Word;
const C: Width = Width::Count;
const WORDS: Slice = Slice { width: Width::Word, mutable: false };
const WORDS_MUT: Slice = Slice { width: Width::Word, mutable: true };
const BYTES: Slice = Slice { width: Width::Byte, mutable: false };
const BYTES_MUT: Slice = Slice { width: Width::Byte, mutable: true };

pub static SHAPES: [Shape; 12] = [
    Shape { call: FRESH, name: "fresh", numbers: &[W], slices: &[WORDS_MUT], answers: 6 },
    Shape {
        call: TAKE,
        name: "take",
        numbers: &[W, W, W, C, C],
        slices: &[WORDS_MUT, WORDS_MUT],
        answers: 6,
    },
    Shape {
        call: LEARN,
        name: "learn",
        numbers: &[W],
        slices: &[WORDS, WORDS_MUT, WORDS_MUT],
        answers: 6,
    },
    Shape {
        call: JOIN,
        name: "join",
        numbers: &[W, C, C, C, C],
        slices: &[WORDS, WORDS, WORDS, WORDS, WORDS_MUT, WORDS_MUT],
        answers: 6,
    },
    Shape { call: APPLY, name: "apply", numbers: &[W, W, C], slices: &[WORDS], answers: 7 },
    Shape {
        call: SESSION_START,
        name: "session start",
        numbers: &[W],
        slices: &[WORDS_MUT],
        answers: 11,
    },
    Shape {
        call: SESSION_TAKE,
        name: "session take",
        numbers: &[W, C, C, C, C, W, W],
        slices: &[WORDS_MUT, WORDS_MUT],
        answers: 11,
    },
    Shape { call: READ, name: "read", numbers: &[], slices: &[BYTES, WORDS_MUT], answers: 4 },
    Shape {
        call: WRITE,
        name: "write",
        numbers: &[W, C],
        slices: &[WORDS, BYTES, BYTES, BYTES_MUT],
        answers: 7,
    },
    Shape {
        call: RUN,
        name: "run",
        numbers: &[],
        slices: &[BYTES, WORDS_MUT, WORDS_MUT, WORDS_MUT, BYTES_MUT],
        answers: 1,
    },
    Shape { call: LOOKUP, name: "lookup", numbers: &[C], slices: &[BYTES, BYTES], answers: 3 },
    Shape {
        call: READ_SHEET,
        name: "read sheet",
        numbers: &[],
        slices: &[BYTES, WORDS_MUT],
        answers: 4,
    },
];

/// The shape of a call number.
pub fn shape_of(call: u64) -> Option<&'static Shape> {
    SHAPES.iter().find(|shape| shape.call == call)
}

/// A request: every number and every lent slice fits the shape.
#[derive(Clone, Debug)]
pub struct Request {
    pub shape: &'static Shape,
    pub numbers: Vec<u64>,
    pub slices: Vec<Vec<u64>>,
}

/// What the input holds next.
pub enum Next {
    Request(Request),
    /// The input ends between two requests.
    End,
    /// A call that does not exist, a number too large for its field, a slice too long, or an
    /// input that ends inside a request.
    Malformed,
}

/// One 64-bit word, if the input holds eight more bytes.
pub fn next_word(input: &mut impl Read) -> io::Result<Option<u64>> {
    let mut bytes = [0; 8];
    match input.read_exact(&mut bytes) {
        Ok(()) => Ok(Some(u64::from_le_bytes(bytes))),
        Err(error) if error.kind() == io::ErrorKind::UnexpectedEof => Ok(None),
        Err(error) => Err(error),
    }
}

/// The next request of the input.
pub fn next_request(input: &mut impl Read) -> io::Result<Next> {
    let mut first = Vec::new();
    if input.take(8).read_to_end(&mut first)? == 0 {
        return Ok(Next::End);
    }
    let call = first.try_into().ok().map(u64::from_le_bytes);
    let request = match call.and_then(shape_of) {
        Some(shape) => request_of(shape, input)?,
        None => None,
    };
    Ok(request.map_or(Next::Malformed, Next::Request))
}

fn request_of(shape: &'static Shape, input: &mut impl Read) -> io::Result<Option<Request>> {
    let mut numbers = Vec::new();
    for width in shape.numbers {
        match bounded_word(input, width.most())? {
            Some(number) => numbers.push(number),
            None => return Ok(None),
        }
    }
    let mut slices = Vec::new();
    for slice in shape.slices {
        match next_slice(input, slice.width)? {
            Some(elements) => slices.push(elements),
            None => return Ok(None),
        }
    }
    Ok(Some(Request { shape, numbers, slices }))
}

fn bounded_word(input: &mut impl Read, most: u64) -> io::Result<Option<u64>> {
    Ok(next_word(input)?.filter(|word| *word <= most))
}

fn next_slice(input: &mut impl Read, width: Width) -> io::Result<Option<Vec<u64>>> {
    let Some(length) = bounded_word(input, width.longest())? else {
        return Ok(None);
    };
    let mut elements = Vec::new();
    for _ in 0..length {
        match bounded_word(input, width.most())? {
            Some(element) => elements.push(element),
            None => return Ok(None),
        }
    }
    Ok(Some(elements))
}

/// The bytes of some 64-bit words.
pub fn bytes_of(words: &[u64]) -> Vec<u8> {
    words.iter().flat_map(|word| word.to_le_bytes()).collect()
}

impl Request {
    /// The words of the request as the format has them.
    pub fn words(&self) -> Vec<u64> {
        let mut words = vec![self.shape.call];
        words.extend(&self.numbers);
        for slice in &self.slices {
            words.push(slice.len() as u64);
            words.extend(slice);
        }
        words
    }

    /// How many words the answer has.
    pub fn answer_length(&self) -> usize {
        let lent = self.shape.slices.iter().zip(&self.slices);
        let mutable = lent.filter(|(slice, _)| slice.mutable);
        self.shape.answers + mutable.map(|(_, elements)| elements.len()).sum::<usize>()
    }

    /// Calls what is asked for: every number of the answer, then every element of every lent
    /// mutable slice.
    pub fn answer(&self) -> Vec<u64> {
        match self.shape.call {
            FRESH => self.answer_fresh(),
            TAKE => self.answer_take(),
            LEARN => self.answer_learn(),
            JOIN => self.answer_join(),
            APPLY => self.answer_apply(),
            SESSION_START => self.answer_session_start(),
            SESSION_TAKE => self.answer_session_take(),
            READ => self.answer_read(text::read),
            WRITE => self.answer_write(),
            RUN => self.answer_run(),
            LOOKUP => self.answer_lookup(),
            READ_SHEET => self.answer_read(text::read_sheet),
            _ => unreachable!("a shape has one of these calls"),
        }
    }

    /// A number whose field is 32 bits wide.
    fn word(&self, place: usize) -> u32 {
        self.numbers[place] as u32
    }

    fn lent_words(&self, place: usize) -> Vec<u32> {
        self.slices[place].iter().map(|word| *word as u32).collect()
    }

    pub fn lent_bytes(&self, place: usize) -> Vec<u8> {
        self.slices[place].iter().map(|byte| *byte as u8).collect()
    }

    fn answer_fresh(&self) -> Vec<u64> {
        let mut sheet = self.lent_words(0);
        let answer = calls::fresh(self.word(0), &mut sheet);
        [numbers_of(answer), widened(&sheet)].concat()
    }

    fn answer_take(&self) -> Vec<u64> {
        let (mut book, mut sheet) = (self.lent_words(0), self.lent_words(1));
        let answer = calls::take(
            self.word(0),
            self.word(1),
            self.word(2),
            self.numbers[3],
            self.numbers[4],
            &mut book,
            &mut sheet,
        );
        [numbers_of(answer), widened(&book), widened(&sheet)].concat()
    }

    fn answer_learn(&self) -> Vec<u64> {
        let words = self.lent_words(0);
        let (mut book, mut sheet) = (self.lent_words(1), self.lent_words(2));
        let answer = calls::learn(self.word(0), &words, &mut book, &mut sheet);
        [numbers_of(answer), widened(&book), widened(&sheet)].concat()
    }

    fn answer_join(&self) -> Vec<u64> {
        let (a_book, a_sheet) = (self.lent_words(0), self.lent_words(1));
        let (b_book, b_sheet) = (self.lent_words(2), self.lent_words(3));
        let (mut book, mut sheet) = (self.lent_words(4), self.lent_words(5));
        let a = Lent {
            book_count: self.numbers[1],
            sheet_count: self.numbers[2],
            book: &a_book,
            sheet: &a_sheet,
        };
        let b = Lent {
            book_count: self.numbers[3],
            sheet_count: self.numbers[4],
            book: &b_book,
            sheet: &b_sheet,
        };
        let answer = calls::join(self.word(0), a, b, &mut book, &mut sheet);
        [numbers_of(answer), widened(&book), widened(&sheet)].concat()
    }

    fn answer_apply(&self) -> Vec<u64> {
        let sheet = self.lent_words(0);
        let (answer, state) = calls::apply(self.word(0), self.word(1), self.numbers[2], &sheet);
        [numbers_of(answer), vec![u64::from(state)]].concat()
    }

    fn answer_session_start(&self) -> Vec<u64> {
        let mut sheet = self.lent_words(0);
        let (answer, session) = session::start(self.word(0), &mut sheet);
        [numbers_of(answer), session_numbers(session), widened(&sheet)].concat()
    }

    fn answer_session_take(&self) -> Vec<u64> {
        let (mut book, mut sheet) = (self.lent_words(0), self.lent_words(1));
        let session = Session {
            n: self.word(0),
            book_count: self.numbers[1],
            sheet_count: self.numbers[2],
            struck: self.numbers[3],
            added: self.numbers[4],
        };
        let (answer, session) =
            session::session_take(session, self.word(5), self.word(6), &mut book, &mut sheet);
        let numbers = [numbers_of(answer), session_numbers(session)].concat();
        [numbers, widened(&book), widened(&sheet)].concat()
    }

    /// By either reader.
    fn answer_read(&self, reader: impl Fn(&[u8], &mut [u32]) -> Reading) -> Vec<u64> {
        let mut words = self.lent_words(1);
        let reading = reader(&self.lent_bytes(0), &mut words);
        let numbers = vec![reading.code, reading.place, u64::from(reading.n), reading.count];
        [numbers, widened(&words)].concat()
    }

    fn answer_write(&self) -> Vec<u64> {
        let (n, count, sheet) = (self.word(0), self.numbers[1], self.lent_words(0));
        let (panel, maker) = (self.lent_bytes(1), self.lent_bytes(2));
        let mut out = self.lent_bytes(3);
        let (answer, length) = text::write(n, count, &sheet, &panel, &maker, &mut out);
        [numbers_of(answer), vec![length], widened(&out)].concat()
    }

    fn answer_run(&self) -> Vec<u64> {
        let (mut list, mut book) = (self.lent_words(1), self.lent_words(2));
        let (mut sheet, mut out) = (self.lent_words(3), self.lent_bytes(4));
        let length = text::run(&self.lent_bytes(0), &mut list, &mut book, &mut sheet, &mut out);
        let words = [widened(&list), widened(&book), widened(&sheet)].concat();
        [vec![length], words, widened(&out)].concat()
    }

    fn answer_lookup(&self) -> Vec<u64> {
        let (panel, maker) = (self.lent_bytes(0), self.lent_bytes(1));
        let Part { of_maker, start, length } = text::lookup(self.numbers[0], &panel, &maker);
        vec![u64::from(of_maker), start as u64, length as u64]
    }
}

fn widened<T: Copy + Into<u64>>(elements: &[T]) -> Vec<u64> {
    elements.iter().map(|element| (*element).into()).collect()
}

fn numbers_of(answer: Answer) -> Vec<u64> {
    let Answer { code, place, book_count, sheet_count, struck, added } = answer;
    vec![code, place, book_count, sheet_count, struck, added]
}

fn session_numbers(session: Session) -> Vec<u64> {
    let Session { n, book_count, sheet_count, struck, added } = session;
    vec![u64::from(n), book_count, sheet_count, struck, added]
}

/// Answers every request until the input ends; true when it ends between two requests.
pub fn serve(input: &mut impl Read, output: &mut impl Write) -> io::Result<bool> {
    loop {
        match next_request(input)? {
            Next::End => return Ok(true),
            Next::Malformed => return Ok(false),
            Next::Request(request) => {
                output.write_all(&bytes_of(&request.answer()))?;
                // A client may wait for this answer before it asks again.
                output.flush()?;
            }
        }
    }
}
