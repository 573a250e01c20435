//! A bench session, by value.

use crate::calls::{fresh, judge_panel, require, take, Answer, COUNT_ABOVE_SLICE, DONE};

/// A total above this is refused on entry.
pub const MOST_TOTAL: u64 = 1_000_000_000;

/// What a session keeps from call to call.
#[derive(Clone, Copy, Debug, Default, PartialEq, Eq)]
pub struct Session {
    pub n: u32,
    pub book_count: u64,
    pub sheet_count: u64,
    pub struck: u64,
    pub added: u64,
}

/// Starts a session like fresh; a refused start gives a session whose five numbers are 0.
pub fn start(n: u32, sheet: &mut [u32]) -> (Answer, Session) {
    let answer = fresh(n, sheet);
    let session = if answer.code == DONE {
        Session { n, sheet_count: answer.sheet_count, ..Session::default() }
    } else {
        Session::default()
    };
    (answer, session)
}

/// Takes one transition through a session; a refusal or code 1 changes nothing in it.
pub fn session_take(
    session: Session,
    state: u32,
    successor: u32,
    book: &mut [u32],
    sheet: &mut [u32],
) -> (Answer, Session) {
    let Session { n, book_count, sheet_count, struck, added } = session;
    // Counts above their slices are code 3 as well; take finds them, before it asks for 4.
    if let Err(code) = judge_panel(n).and_then(|()| judge_totals(session)) {
        return (Answer { book_count, sheet_count, ..Answer::bare(code) }, session);
    }
    let answer = take(n, state, successor, book_count, sheet_count, book, sheet);
    if answer.code != DONE {
        return (answer, session);
    }
    let after = Session {
        n,
        book_count: answer.book_count,
        sheet_count: answer.sheet_count,
        struck: struck + answer.struck,
        added: added + answer.added,
    };
    (answer, after)
}

/// Code 3 by the totals. The sums are of whole numbers: in 128 bits none leaves its width.
fn judge_totals(session: Session) -> Result<(), u64> {
    let wide = u128::from;
    require(session.struck <= MOST_TOTAL, COUNT_ABOVE_SLICE)?;
    require(session.added <= MOST_TOTAL, COUNT_ABOVE_SLICE)?;
    let gained = u128::from(session.n) + wide(session.added);
    let kept = wide(session.sheet_count) + wide(session.struck);
    require(gained == kept, COUNT_ABOVE_SLICE)
}
