//! Prints requests (docs/DESK.md): seeded ones, the examples of document 01, large ones, or one
//! malformed request between two good ones.

use std::io::{self, BufWriter, Write};
use std::process::ExitCode;

use second::cases::{examples, large, malformed, requests_but};
use second::desk::{bytes_of, Request};

const USAGE: &str = "usage: cases --cases N --seed S [--skip CALL]
       cases --examples [--skip CALL]
       cases --large
       cases --malformed K    the K-th, from 0; fails where there are not so many";

fn main() -> ExitCode {
    let arguments: Vec<String> = std::env::args().skip(1).collect();
    let mut words: Vec<&str> = arguments.iter().map(String::as_str).collect();
    let skipped = match words[..] {
        [.., "--skip", call] => {
            words.truncate(words.len() - 2);
            call.parse::<u64>().ok()
        }
        _ => None,
    };
    let asked = |request: &Request| Some(request.shape.call) != skipped;
    let printed = match words[..] {
        ["--examples"] => print(examples().into_iter().filter(asked)),
        ["--large"] => print(large().into_iter()),
        ["--malformed", which] => {
            match which.parse().ok().and_then(|k| malformed().into_iter().nth(k)) {
                Some(words) => print_malformed(&words),
                None => return ExitCode::FAILURE,
            }
        }
        ["--cases", cases, "--seed", seed] | ["--seed", seed, "--cases", cases] => {
            match (cases.parse(), seed.parse()) {
                (Ok(cases), Ok(seed)) => print(requests_but(cases, seed, skipped)),
                _ => return usage(),
            }
        }
        _ => return usage(),
    };
    match printed {
        Ok(()) => ExitCode::SUCCESS,
        Err(error) => {
            eprintln!("cases: {error}");
            ExitCode::FAILURE
        }
    }
}

fn usage() -> ExitCode {
    eprintln!("{USAGE}");
    ExitCode::from(2)
}

fn print(requests: impl Iterator<Item = Request>) -> io::Result<()> {
    let mut output = BufWriter::with_capacity(1 << 16, io::stdout().lock());
    for request in requests {
        output.write_all(&bytes_of(&request.words()))?;
    }
    output.flush()
}

fn print_malformed(words: &[u64]) -> io::Result<()> {
    let good = [1, 2, 0];
    io::stdout().lock().write_all(&bytes_of(&[&good[..], words, &good].concat()))
}
