//! The weighted search where its weights, scores, needs, refusals and slices are special.
use crate::ask::Scratch;
use crate::compare::{assert_met, compare, compare_in, needed, Met};
use crate::faults::compare_with_faults;
use crate::library::{archive, height, Library};
use crate::questions::{answer, Lent, Question, ROOM};
use crate::random::{self, Random};
use crate::raw::FORMS;
use crate::sweep::with_archive;
use crate::weighted::weight;
use crate::{quick, rounds};
use masuvelior::{write, Archive, Ended, Refusal};

/// A library of these lists, one for each term.
pub fn library(documents: u32, terms: &[&[u32]]) -> Library {
    let lengths = terms.iter().map(|term| term.len() as u32).collect();
    Library { entries: terms.concat(), lengths, documents }
}

/// The small library: term 0 has the documents 0, 1 and 3, term 1 none, term 2 all, document 3 twice.
pub fn small() -> Library {
    library(4, &[&[3, 1, 0], &[], &[3, 2, 1, 3, 0]])
}

/// Asks for some terms with every k and every allowance, up to one more than matters.
fn every_k_and_allowance(archive: &Archive, library: &Library, terms: &[u32], met: &mut Met) {
    let nodes = 1 << height(library.documents);
    for k in (0..=library.documents + 1).chain([u32::MAX]) {
        for allowance in (0..=nodes).chain([u32::MAX]) {
            let question = Question::Weighted { terms: terms.to_vec(), k, allowance };
            compare(archive, library, &question, needed(library, &question), met);
        }
    }
}

/// Libraries whose terms weigh the same, weigh 0 or have no entries, with one document, and with N beside a power of two.
#[test]
fn special_libraries() {
    let mut random = Random::new(41);
    let mut met = Met::new();
    let all_but_two: Vec<u32> = (2..13).collect();
    let libraries = [
        library(1, &[&[0, 0, 0], &[], &[0]]),
        library(2, &[&[1], &[0], &[0, 1], &[]]),
        library(3, &[&[2, 2], &[0, 1], &[], &[2, 1, 0]]),
        library(4, &[&[0, 1, 2, 3], &[3, 3, 2, 1, 0, 0], &[]]), // all weigh 0
        library(5, &[&[4], &[4, 4], &[0, 1, 2, 3], &[], &[1, 4]]),
        library(8, &[&[0, 5], &[5, 0], &[2, 7], &[6, 1], &[3]]), // scores tie across the tree
        library(8, &[&[7, 0, 3, 4], &[1, 2, 5, 6], &[0, 1, 2, 3, 4, 5, 6, 7]]), // every score ties
        library(9, &[&[8], &[8, 8], &[7, 8], &[], &[0, 8]]),     // the last document is alone in its half
        library(13, &[&all_but_two, &[12], &[0, 1]]),            // a term that weighs 0 and leaves nodes empty
        library(16, &[&[0, 0, 0], &[15], &[7, 8], &[8, 8, 8, 7]]),
        library(17, &[&[16, 0], &[16], &[3, 3, 3], &[0, 16, 16]]),
    ];
    for library in libraries {
        with_archive(&mut random, &library, |random, archive| {
            let terms = archive.terms();
            let mut choices: Vec<Vec<u32>> = vec![(0..terms).collect(), vec![terms - 1; 8]];
            for x in 0..terms {
                choices.push(vec![x]);
                choices.extend((0..terms).map(|y| vec![x, y])); // a term twice, and both orders of two
            }
            for terms in choices {
                if !quick() || random.one_in(9) {
                    every_k_and_allowance(archive, &library, &terms, &mut met);
                }
            }
        });
    }
    assert_met(&met, 0..=0);
}

/// The score of a document that has one entry under a term is the term's weight.
fn weigh_one(archive: &Archive, term: u32, df: u32) {
    let (documents, _) = archive.weighted(&[term], 1, u32::MAX).unwrap();
    let right: Vec<(u32, u32)> = (df > 0).then_some((0, weight(archive.documents(), df))).into_iter().collect();
    assert_eq!(documents, right, "{df} of {}", archive.documents());
}

/// Every N up to 80 with each number of documents that a term may have.
#[test]
fn weights_of_small_libraries() {
    for documents in (1..=80).step_by(if quick() { 9 } else { 1 }) {
        let entries: Vec<u32> = (0..=documents).flat_map(|df| 0..df).collect();
        let lengths: Vec<u32> = (0..=documents).collect();
        let bytes = write(&entries, &lengths, documents).unwrap();
        let archive = Archive::open(&bytes).unwrap();
        for df in 0..=documents {
            weigh_one(&archive, df, df);
        }
    }
}

/// Large N: for each weight the most documents that give it, and one more.
#[test]
fn weights_of_large_libraries() {
    let sizes = [4_096, 4_095, 2_049, 1_000];
    for documents in sizes.into_iter().skip(if quick() { 3 } else { 0 }) {
        let most = |g: u32| (1..=documents).rev().find(|df| weight(documents, *df) >= g);
        let mut dfs: Vec<u32> = (0..=48).filter_map(most).flat_map(|df| [df, (df + 1).min(documents)]).collect();
        dfs.dedup();
        let entries: Vec<u32> = dfs.iter().flat_map(|df| 0..*df).collect();
        let bytes = write(&entries, &dfs, documents).unwrap();
        let archive = Archive::open(&bytes).unwrap();
        for (term, df) in (0..).zip(&dfs) {
            weigh_one(&archive, term, *df);
        }
        let largest = dfs.iter().map(|df| weight(documents, *df)).max();
        assert_eq!(largest == Some(48), documents == 4_096);
    }
}

/// The largest score that there is: as many entries as there may be, all of them the last of 4,096 documents. Their term is given once or eight
/// times, or eight terms share them.
#[test]
fn largest_score() -> Result<(), Refusal> {
    let shared = [8_192, 8_192, 8_192, 8_192, 8_192, 8_192, 8_192, 8_191];
    let cases: [(&[u32], &[u32]); 3] = [(&[65_535], &[0]), (&[65_535], &[0; 8]), (&shared, &[0, 1, 2, 3, 4, 5, 6, 7])];
    for (lengths, terms) in cases {
        let bytes = write(&[4_095; 65_535], lengths, 4_096)?;
        let archive = Archive::open(&bytes)?;
        let (documents, ended) = archive.weighted(terms, u32::MAX, 12)?;
        assert_eq!(documents, [(4_095, 3_145_680)]);
        assert_eq!(ended, Ended::Done { openings: 12 });
        let (documents, ended) = archive.weighted(terms, 1, 11)?;
        assert!(documents.is_empty());
        assert_eq!(ended, Ended::Spent { allowance: 11 });
    }
    Ok(())
}

/// By different documents, not by entries; and no node without an entry is opened, also where the last score is 0.
#[test]
fn cases_that_tell_readings_apart() -> Result<(), Refusal> {
    let (documents, _) = Archive::open(&write(&[0, 0], &[2], 4)?)?.weighted(&[0], 4, 9)?;
    assert_eq!(documents, [(0, 16)]);
    let entries: Vec<u32> = (2..13).collect();
    let bytes = write(&entries, &[11], 13)?;
    let archive = Archive::open(&bytes)?;
    let (documents, ended) = archive.weighted(&[0], 1, 9)?;
    assert_eq!(documents, [(2, 0)]);
    assert_eq!(ended, Ended::Done { openings: 4 });
    let (documents, ended) = archive.weighted(&[0], 11, 14)?;
    assert_eq!((documents.len(), ended), (11, Ended::Done { openings: 13 }));
    let (documents, ended) = archive.weighted(&[0], 11, 10)?;
    assert_eq!((documents.len(), ended), (8, Ended::Spent { allowance: 10 }));
    Ok(())
}

/// Every refusal, alone and with each set of others: faults of the archive, of the number of terms, of a term, and of both slices.
#[test]
fn every_refusal_and_every_order() {
    let choices: [&[u32]; 9] =
        [&[0, 2], &[2, 0, 2, 2], &[], &[0; 9], &[3], &[0, 3], &[u32::MAX, 0], &[3; 9], &[0, 0, 0, 0, 0, 0, 0, 3]];
    let mut met = Met::new();
    for terms in choices {
        let question = Question::Weighted { terms: terms.to_vec(), k: 2, allowance: 9 };
        for (first, second) in [(4, 16), (3, 16), (4, 15), (3, 15), (0, 0)] {
            compare_with_faults(&question, Lent { first, second }, &mut met);
        }
    }
    assert_met(&met, 0..=13);
}

/// Slices that are short by one number, exact and longer, and full of zeros, ones or what an earlier search may have left there.
#[test]
fn slices_of_every_length() {
    let library = library(5, &[&[4, 0, 2], &[4, 1], &[], &[3, 3, 3]]);
    let bytes = archive(&library);
    let mut met = Met::new();
    for k in [0, 1, 2, 4, 5, 6, u32::MAX] {
        let room = 2 * k.min(5) as usize;
        for (first, second) in (room.saturating_sub(2)..room + 4).flat_map(|first| (18..24).map(move |x| (first, x))) {
            for allowance in [0, 3, 6, 99] {
                let question = Question::Weighted { terms: vec![3, 0, 1], k, allowance };
                let right = answer(&library, &question, Lent { first, second });
                met.insert(right.as_ref().err().copied().unwrap_or(0));
                for number in [0, 1, 16, 0x7FFF_FFFF, u32::MAX] {
                    let scratch = Scratch { first: vec![number; first], second: vec![number; second] };
                    for form in FORMS {
                        compare_in(&bytes, form, &question, scratch.clone(), &right);
                    }
                }
            }
        }
    }
    assert_met(&met, 0..=0);
    assert_met(&met, 12..=13);
}

/// A library whose terms have from none to many documents, so that their weights differ.
fn rare_and_common(random: &mut Random, documents: u32, terms: u32) -> Library {
    let mut library = Library { entries: vec![], lengths: vec![], documents };
    for _ in 0..terms {
        let length = random.of_bits(7);
        let among = (1 + random.of_bits(12)).min(documents);
        let from = random.below(documents - among + 1);
        library.entries.extend((0..length).map(|_| from + random.below(among)));
        library.lengths.push(length);
    }
    library
}

/// Random terms, with allowances about what is needed.
#[test]
fn random_searches() {
    let mut random = Random::new(42);
    let mut met = Met::new();
    for _ in 0..rounds(1_000) {
        let documents = 1 + random.of_bits(10);
        let terms = 1 + random.below(20);
        let library = rare_and_common(&mut random, documents, terms);
        with_archive(&mut random, &library, |random, archive| {
            for _ in 0..4 {
                let question = random::weighted(random, &library);
                let slices = random::lent(random, needed(&library, &question));
                compare(archive, &library, &question, slices, &mut met);
                around_the_need(archive, &library, question, &mut met);
            }
        });
    }
    assert_met(&met, 0..=0);
    assert_met(&met, 10..=13);
}

/// The same question with the openings that it needs, one more, one less and half of them.
fn around_the_need(archive: &Archive, library: &Library, question: Question, met: &mut Met) {
    let Question::Weighted { terms, k, .. } = question else { unreachable!("not weighted: {question:?}") };
    let whole = Question::Weighted { terms: terms.clone(), k, allowance: u32::MAX };
    let Ok(right) = answer(library, &whole, ROOM) else { return };
    let need = right.numbers[2];
    for allowance in [need, need + 1, need.saturating_sub(1), need / 2] {
        let question = Question::Weighted { terms: terms.clone(), k, allowance };
        compare(archive, library, &question, needed(library, &question), met);
    }
}
