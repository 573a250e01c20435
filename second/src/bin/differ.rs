//! `differ REQUESTS ANSWERS OTHER-ANSWERS`: prints the first request that two desks answer in
//! different ways, its answers, and where they differ. Fails if there is one.

use std::fs::File;
use std::io::{self, BufReader, Read};
use std::process::ExitCode;

use second::desk::{next_request, next_word, Next, Request};

/// So many elements of a slice or an answer are printed.
const SHOWN: usize = 60;

fn main() -> ExitCode {
    let arguments: Vec<String> = std::env::args().skip(1).collect();
    let [requests, answers, others] = &arguments[..] else {
        eprintln!("usage: differ REQUESTS ANSWERS OTHER-ANSWERS");
        return ExitCode::from(2);
    };
    match first_difference(requests, answers, others) {
        Ok(None) => ExitCode::SUCCESS,
        Ok(Some(difference)) => {
            println!("{difference}");
            ExitCode::FAILURE
        }
        Err(error) => {
            eprintln!("differ: {error}");
            ExitCode::FAILURE
        }
    }
}

fn opened(path: &str) -> io::Result<BufReader<File>> {
    Ok(BufReader::with_capacity(1 << 16, File::open(path)?))
}

fn first_difference(requests: &str, answers: &str, others: &str) -> io::Result<Option<String>> {
    let (mut requests, mut answers) = (opened(requests)?, opened(answers)?);
    let mut others = opened(others)?;
    let mut number = 0;
    while let Next::Request(request) = next_request(&mut requests)? {
        number += 1;
        let length = request.answer_length();
        let (answer, other) = (words(&mut answers, length)?, words(&mut others, length)?);
        if answer != other {
            return Ok(Some(told(number, &request, &answer, &other)));
        }
    }
    let left = |answers: &mut BufReader<File>| words(answers, 1).map(|left| !left.is_empty());
    let more = left(&mut answers)? || left(&mut others)?;
    Ok(more.then(|| format!("answers follow those of the {number} requests")))
}

/// The next words, as many as there are.
fn words(answers: &mut impl Read, length: usize) -> io::Result<Vec<u64>> {
    let mut words = Vec::new();
    while words.len() < length {
        match next_word(answers)? {
            Some(word) => words.push(word),
            None => break,
        }
    }
    Ok(words)
}

fn told(number: u64, request: &Request, answer: &[u64], other: &[u64]) -> String {
    let mut told = format!("request {number}: {}\n", request.shape.name);
    told += &format!("  numbers {:?}\n", request.numbers);
    for (place, slice) in request.slices.iter().enumerate() {
        told += &format!("  slice {place} {}\n", shown(slice));
    }
    told += &format!("one answer   {}\nother answer {}\n", shown(answer), shown(other));
    let same = answer.iter().zip(other).take_while(|(one, two)| one == two).count();
    let at = |words: &[u64]| words.get(same).map_or("nothing".to_string(), u64::to_string);
    told + &format!("first difference at word {same}: {} and {}", at(answer), at(other))
}

fn shown(words: &[u64]) -> String {
    let more = if words.len() > SHOWN { " .." } else { "" };
    format!("({} words) {:?}{more}", words.len(), &words[..words.len().min(SHOWN)])
}
