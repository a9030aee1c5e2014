//! Opens an archive and prints the documents in which the terms FIRST to LAST occur most, each with its count and the place of its first entry:
//!
//!     cargo run --example shortlist -- harbour.archive FIRST LAST [K [ALLOWANCE]]
use masuvelior::Over::Terms;
use masuvelior::{Archive, Ended};
use std::error::Error;
use std::process::ExitCode;

fn main() -> ExitCode {
    match run(std::env::args().skip(1).collect()) {
        Ok(()) => ExitCode::SUCCESS,
        Err(error) => {
            eprintln!("{error}");
            ExitCode::FAILURE
        }
    }
}

fn run(words: Vec<String>) -> Result<(), Box<dyn Error>> {
    let [path, first, last, more @ ..] = words.as_slice() else {
        return Err("usage: shortlist ARCHIVE FIRST LAST [K [ALLOWANCE]]".into());
    };
    let (first, last) = (first.parse()?, last.parse()?);
    let number = |i: usize| more.get(i).map(|word| word.parse()).transpose();
    let (k, allowance) = (number(0)?.unwrap_or(10), number(1)?.unwrap_or(u32::MAX));

    let bytes = std::fs::read(path)?;
    let archive = Archive::open(&bytes)?;
    let (documents, ended) = archive.greedy(Terms(first..=last), k, allowance)?;
    for found in documents {
        println!("{} {} {}", found.document, found.count, found.place);
    }
    match ended {
        Ended::Done { openings } => println!("done {openings}"),
        Ended::Spent { allowance } => println!("spent {allowance}"),
    }
    Ok(())
}
