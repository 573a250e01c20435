//! `tally REQUESTS ANSWERS [--skip CALL]`: how many cases of each call and outcome two files
//! hold. Fails if an outcome that can occur in a call was never reached there, or one that cannot
//! was; of a skipped call none is expected.

use std::fs::File;
use std::io::{self, BufReader};
use std::process::ExitCode;

use second::tally::Tally;

fn main() -> ExitCode {
    let arguments: Vec<String> = std::env::args().skip(1).collect();
    let (requests, answers, skipped) = match &arguments[..] {
        [requests, answers] => (requests, answers, None),
        [requests, answers, skip, call] if skip == "--skip" => {
            (requests, answers, call.parse().ok())
        }
        _ => {
            eprintln!("usage: tally REQUESTS ANSWERS [--skip CALL]");
            return ExitCode::from(2);
        }
    };
    match tally(requests, answers) {
        Ok(tally) => report(&tally, skipped),
        Err(error) => {
            eprintln!("tally: {error}");
            ExitCode::FAILURE
        }
    }
}

fn tally(requests: &str, answers: &str) -> io::Result<Tally> {
    let mut requests = BufReader::with_capacity(1 << 16, File::open(requests)?);
    let mut answers = BufReader::with_capacity(1 << 16, File::open(answers)?);
    Tally::of_streams(&mut requests, &mut answers)
}

fn report(tally: &Tally, skipped: Option<u64>) -> ExitCode {
    print!("{}", tally.table());
    let failures = tally.failures_but(skipped);
    for failure in &failures {
        println!("FAILED {failure}");
    }
    if failures.is_empty() {
        ExitCode::SUCCESS
    } else {
        ExitCode::FAILURE
    }
}
