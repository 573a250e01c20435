//! Seeded random requests, valid and damaged, for every call.

pub mod dice;
mod examples;
mod large;
mod lending;
mod malformed;
mod requests;
mod sheet_texts;
mod texts;

pub use examples::examples;
pub use large::large;
pub use malformed::malformed;

use crate::desk::{Request, Shape, SHAPES};
use crate::tally::{outcome_of, targets, Outcome};
use dice::Dice;

/// So many tries are made to meet an outcome; the rarest needs some hundreds.
const MOST_TRIES: u32 = 100_000;

/// The requests of a seed: first one for each outcome that can occur in each call, then any.
pub fn requests(cases: u64, seed: u64) -> impl Iterator<Item = Request> {
    requests_but(cases, seed, None)
}

/// The same without one of the calls.
pub fn requests_but(cases: u64, seed: u64, skipped: Option<u64>) -> impl Iterator<Item = Request> {
    let mut dice = Dice::new(seed);
    let mut wanted = targets().into_iter().filter(move |(call, _)| Some(*call) != skipped);
    let shapes: Vec<&Shape> = SHAPES.iter().filter(|shape| Some(shape.call) != skipped).collect();
    (0..cases).map(move |_| match wanted.next() {
        Some((call, outcome)) => request_with(&mut dice, call, outcome),
        None => {
            let call = dice.pick(&shapes).call;
            requests::request(&mut dice, call)
        }
    })
}

/// A request of the call whose answer has the outcome.
fn request_with(dice: &mut Dice, call: u64, outcome: Outcome) -> Request {
    let mut tries = (0..MOST_TRIES).map(|_| requests::request(dice, call));
    let found = tries.find(|request| outcome_of(request, &request.answer()) == Some(outcome));
    found.unwrap_or_else(|| panic!("no request of call {call} found for {outcome:?}"))
}
