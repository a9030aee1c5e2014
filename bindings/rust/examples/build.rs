//! Builds an archive of a few texts and asks it in memory. With a path it also writes the archive there:
//!
//!     cargo run --example build -- harbour.archive
use masuvelior::Over::Terms;
use masuvelior::{per_mille, write, Archive, Expr, Refusal};
use std::collections::BTreeMap;
use std::error::Error;

const TEXTS: [&str; 5] = [
    "the tide is low and the harbour is closed",
    "the harbour is open at high tide",
    "a boat waits for the tide",
    "the boat left the harbour before the storm",
    "storm and tide and storm again",
];

fn main() -> Result<(), Box<dyn Error>> {
    // Each term, in dictionary order, with the document of each of its occurrences.
    let mut terms: BTreeMap<&str, Vec<u32>> = BTreeMap::new();
    for (document, text) in (0..).zip(TEXTS) {
        for word in text.split_whitespace() {
            terms.entry(word).or_default().push(document);
        }
    }
    let entries: Vec<u32> = terms.values().flatten().copied().collect();
    let lengths: Vec<u32> = terms.values().map(|of| of.len() as u32).collect();

    let bytes = write(&entries, &lengths, TEXTS.len() as u32)?;
    let archive = Archive::open(&bytes)?;
    println!("{archive:?} in {} bytes", bytes.len());

    let numbers: BTreeMap<&str, u32> = terms.keys().copied().zip(0..).collect();
    println!("both 'harbour' and 'tide':");
    for found in archive.conjunction(&[numbers["harbour"], numbers["tide"]])? {
        println!("  {} times: {}", found.count, TEXTS[found.document as usize]);
    }

    by_score(&archive, &numbers)?;

    println!("'harbour' or 'boat', and not 'storm':");
    let term = |word: &str| Expr::term(numbers[word]);
    let question = (term("harbour") | term("boat")) & !term("storm");
    for document in archive.boolean(question.numbers())? {
        println!("  {}", TEXTS[document as usize]);
    }

    // Three texts counted as one: what is before the end of 'the', without what is before its start.
    let the = archive.range_of_terms(numbers["the"]..=numbers["the"])?;
    let [before, through] = [the.start, the.end].map(|place| archive.rank_set(&[0, 1, 3], place));
    println!("'the' in the first, the second and the fourth text: {} times", through? - before?);

    // Neighbours in the dictionary are one range: 'storm' to 'tide' has 'the' between them.
    let range = numbers["storm"]..=numbers["tide"];
    let size = archive.range_of_terms(range.clone())?.len() as u32;
    println!("most of 'storm' to 'tide':");
    for found in archive.probing(Terms(range), 2)? {
        let rate = per_mille(found.count, size)?;
        println!("  {rate} per mille, first at entry {}: {}", found.place, TEXTS[found.document as usize]);
    }

    if let Some(path) = std::env::args_os().nth(1) {
        std::fs::write(path, &bytes)?;
    }
    Ok(())
}

/// The weighted search, and the order in which it adds up scores.
fn by_score(archive: &Archive, numbers: &BTreeMap<&str, u32>) -> Result<(), Refusal> {
    // 'storm' is in two of the texts and 'the' in four, so that it weighs more.
    println!("'storm' or 'the', by score:");
    let (found, _) = archive.weighted(&[numbers["storm"], numbers["the"]], 3, u32::MAX)?;
    for scored in found {
        println!("  score {}: {}", scored.score, TEXTS[scored.document as usize]);
    }

    println!("'the', 'tide', 'storm' and 'the' again, rarest first:");
    let words: Vec<&str> = numbers.keys().copied().collect(); // a term's number is its place in the dictionary
    for term in archive.rarest_first(&["the", "tide", "storm", "the"].map(|word| numbers[word]))? {
        println!("  {}, {} entries", words[term as usize], archive.range_of_terms(term..=term)?.len());
    }
    Ok(())
}
