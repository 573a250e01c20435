//! The second program: document 01, with Asks 1 to 3 of document 02, by definition and brute
//! force.
//!
//! * `panel`: states, transitions, bodies, rules and their words
//! * `sheets`: which bodies are consistent, permitted, smallest; good books and sheets
//! * `calls`: fresh, take, learn, join, apply on lent slices
//! * `session`: a bench session, by value
//! * `layout`: which recording and sheet texts are accepted, where their names stand, and the faulty
//!   line of the others
//! * `text`: recording text in, sheet text in and out, names looked up, and the program itself
//! * `desk`: requests and answers as 64-bit words (docs/DESK.md)
//! * `cases`: seeded random requests, `tally`: how many of each call and outcome

pub mod calls;
pub mod cases;
pub mod desk;
pub mod layout;
pub mod panel;
pub mod session;
pub mod sheets;
pub mod tally;
pub mod text;
