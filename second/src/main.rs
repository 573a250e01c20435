//! `second` answers requests (docs/DESK.md); `second rulesheet` is the program of document 01.

use std::io::{self, BufReader, BufWriter, Read, Write};
use std::process::ExitCode;

use second::desk::serve;
use second::text::{rulesheet, MOST_INPUT};

fn main() -> ExitCode {
    let arguments: Vec<String> = std::env::args().skip(1).collect();
    let done = match arguments.iter().map(String::as_str).collect::<Vec<_>>()[..] {
        [] => desk(),
        ["rulesheet"] => program(),
        _ => {
            eprintln!("usage: second < REQUESTS > ANSWERS\n       second rulesheet < RECORDING");
            return ExitCode::from(2);
        }
    };
    done.unwrap_or_else(|error| {
        eprintln!("second: {error}");
        ExitCode::from(2)
    })
}

fn desk() -> io::Result<ExitCode> {
    let mut input = BufReader::with_capacity(1 << 16, io::stdin().lock());
    let mut output = BufWriter::with_capacity(1 << 16, io::stdout().lock());
    if serve(&mut input, &mut output)? {
        return Ok(ExitCode::SUCCESS);
    }
    eprintln!("second: malformed request; nothing after it is answered");
    Ok(ExitCode::FAILURE)
}

fn program() -> io::Result<ExitCode> {
    let mut input = Vec::new();
    // One byte more than is allowed tells that the input is too long.
    io::stdin().lock().take(MOST_INPUT as u64 + 1).read_to_end(&mut input)?;
    io::stdout().lock().write_all(&rulesheet(&input))?;
    Ok(ExitCode::SUCCESS)
}
