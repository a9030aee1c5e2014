//! The order in which a weighted search adds up scores: the change request's sentences, and where its refusals, its room and its libraries are
//! special. `typed` has every way to type some terms, and `repeats` every pattern of up to eight terms among three.
use crate::ask::Scratch;
use crate::compare::{compare, compare_in, compare_raw, Met};
use crate::faults::compare_with_faults;
use crate::library::{archive, Library};
use crate::questions::{answer, Lent, Question};
use crate::random::{self, Random};
use crate::raw::FORMS;
use crate::scores::{library, small};
use crate::sweep::with_archive;
use crate::weighted::rarest_first;
use crate::{quick, rounds};
use masuvelior::Archive;
use std::collections::BTreeSet;

const EIGHT: Lent = Lent { first: 8, second: 0 };

/// A library whose terms have so many entries, of any documents.
pub fn of_lengths(random: &mut Random, documents: u32, lengths: &[u32]) -> Library {
    let entries = (0..lengths.iter().sum()).map(|_| random.below(documents)).collect();
    Library { entries, lengths: lengths.to_vec(), documents }
}

fn question(terms: &[u32]) -> Question {
    Question::RarestFirst { terms: terms.to_vec() }
}

/// Asks for the order in every way.
pub fn ask(archive: &Archive, library: &Library, terms: &[u32], met: &mut Met) {
    compare(archive, library, &question(terms), EIGHT, met);
}

/// Terms, and their order or their refusal.
type Case<'a> = (&'a [u32], Result<&'a [u32], u32>);

/// The model says this of each case, and so does every way to ask.
fn hold(library: &Library, cases: &[Case]) {
    with_archive(&mut Random::new(101), library, |_, archive| {
        for (terms, right) in cases {
            assert_eq!(rarest_first(library, terms), right.map(<[u32]>::to_vec), "{terms:?} of {library:?}");
            ask(archive, library, terms, &mut Met::new());
        }
    });
}

/// The cases of the change request, and others by hand.
#[test]
fn cases_that_tell_readings_apart() {
    hold(
        &small(),
        &[
            (&[2, 0], Ok(&[0, 2])),
            (&[0, 2], Ok(&[0, 2])),
            (&[2, 1, 0], Ok(&[1, 0, 2])), // the one without entries first
            (&[0, 0, 2], Ok(&[0, 2])),
            (&[2, 0, 2, 0], Ok(&[0, 2])),
            (&[2; 8], Ok(&[2])),
            (&[1], Ok(&[1])),
            (&[], Err(10)),
            (&[0; 9], Err(10)), // before repeated ones drop out
            (&[3; 9], Err(10)),
            (&[3], Err(11)),
            (&[0, 0, 3], Err(11)),
            (&[u32::MAX, 0], Err(11)),
        ],
    );
    let library = library(4, &[&[2, 2, 2, 2], &[0, 1, 3], &[3, 1], &[0, 0], &[], &[]]);
    hold(
        &library,
        &[
            (&[0, 1], Ok(&[1, 0])), // by different documents it would be 0, 1
            (&[3, 2], Ok(&[2, 3])), // and here 3, 2
            (&[3, 2, 3], Ok(&[2, 3])),
            (&[5, 4], Ok(&[4, 5])),
            (&[0, 1, 2, 3, 4, 5], Ok(&[4, 5, 2, 3, 1, 0])),
            (&[5, 3, 1, 0, 1, 3, 2, 4], Ok(&[4, 5, 2, 3, 1, 0])),
        ],
    );
}

/// What the change request says of an order, beside what the archive says of the entries of a term.
fn hold_sentences(archive: &Archive, typed: &[u32]) {
    let order = archive.rarest_first(typed).unwrap();
    let entries = |term: u32| archive.range_of_terms(term..=term).unwrap().len();
    for two in order.windows(2) {
        let (x, y) = (entries(two[0]), entries(two[1]));
        assert!(x < y || x == y && two[0] < two[1], "{two:?} of {archive:?}");
    }
    let different: BTreeSet<u32> = typed.iter().copied().collect();
    assert_eq!(order.iter().copied().collect::<BTreeSet<u32>>(), different, "{typed:?} of {archive:?}");
    assert_eq!(order.len(), different.len(), "{typed:?} of {archive:?}");
}

/// So many terms, each with one of some numbers of entries: few numbers, so that many terms have as many; and some that share their lower byte.
#[test]
fn sentences_of_the_request() {
    let mut random = Random::new(102);
    let kinds: [(u32, &[u32]); 6] =
        [(1, &[0, 3]), (2, &[5]), (8, &[0, 1]), (20, &[0, 2, 3]), (250, &[1, 255, 256, 257]), (600, &[0, 1, 2, 3])];
    for (terms, lengths) in kinds.into_iter().cycle().take(rounds(120)) {
        let lengths: Vec<u32> = (0..terms).map(|_| *random.pick(lengths)).collect();
        let library = of_lengths(&mut random, 9, &lengths);
        with_archive(&mut random, &library, |random, archive| {
            for _ in 0..40 {
                let size = 1 + random.below(8);
                let typed: Vec<u32> = (0..size).map(|_| random.below(terms)).collect();
                hold_sentences(archive, &typed);
                ask(archive, &library, &typed, &mut Met::new());
            }
        });
    }
}

/// Every refusal, alone and with each set of others: faults of the archive, of the number of terms and of a term.
#[test]
fn every_refusal_and_every_order() {
    let choices: [&[u32]; 11] = [
        &[0, 2],
        &[2, 0, 2, 2],
        &[],
        &[0; 9],
        &[3],
        &[0, 3],
        &[u32::MAX, 0],
        &[3; 8],
        &[3; 9],
        &[0, 0, 0, 0, 0, 0, 0, 3],
        &[0, 0, 0, 0, 0, 0, 0, 0, 3],
    ];
    let mut met = Met::new();
    for question in choices.map(question) {
        compare_with_faults(&question, EIGHT, &mut met);
    }
    assert_eq!(met, (0..=11).collect());
}

/// Lengths that 8 or 16 bits do not hold, with one to eight in their last bits, and others.
#[test]
fn longer_by_far() {
    let bytes = archive(&small());
    for length in (256..=265).chain(65_535..=65_545).chain([1 << 20]) {
        for form in FORMS {
            compare_raw(&bytes, form, &question(&vec![2; length]), EIGHT, &Err(10));
        }
    }
}

/// Orders of one to eight terms, and refusals, in room for eight numbers and for more, which is full of zeros, ones, terms or any numbers: an
/// answer writes all eight, a refusal none of them, and what is behind them stays as it was.
#[test]
fn room_for_eight() {
    let mut random = Random::new(105);
    let library = of_lengths(&mut random, 5, &[4, 0, 3, 3, 1, 0, 9, 2]);
    let bytes = archive(&library);
    let (mut sizes, mut met) = (BTreeSet::new(), Met::new());
    for size in 0..=10 {
        // Ascending; descending; one term; the first that is none, among others.
        let kinds: [fn(u32) -> u32; 4] = [|i| i, |i| 7 - i % 8, |_| 5, |i| 8 - i % 9];
        for typed in kinds.map(|kind| (0..size).map(kind).collect::<Vec<u32>>()) {
            let right = answer(&library, &question(&typed), EIGHT);
            sizes.extend(right.as_ref().map(|right| right.numbers[0]));
            met.insert(right.as_ref().err().copied().unwrap_or(0));
            for (room, form) in (8..=17).flat_map(|room| FORMS.map(|form| (room, form))) {
                let any: Vec<u32> = (0..room).map(|_| random.next()).collect();
                let full = [0, 1, 7, 8, 0x7FFF_FFFF, u32::MAX].map(|number| vec![number; room]);
                for first in full.into_iter().chain([any]) {
                    compare_in(&bytes, form, &question(&typed), Scratch { first, second: vec![] }, &right);
                }
            }
        }
    }
    assert_eq!((sizes, met), ((1..=8).collect(), Met::from([0, 10, 11])));
}

/// At the limits of n and W: terms that share all entries or nearly, and others without.
#[test]
fn orders_of_large_libraries() {
    let mut random = Random::new(106);
    let shared: [&[(usize, u32)]; 5] = [
        &[(17, 65_535)],
        &[(4_095, 32_767), (0, 32_768)],
        &[(0, 32_767), (4_095, 32_768)],
        &[(255, 16_384), (256, 16_383), (511, 16_384), (512, 16_384)],
        &[(1, 0x0102), (2, 0x0201), (3, 0x0101), (4, 0x0202), (256, 0xF9F9)],
    ];
    for shared in shared.into_iter().skip(if quick() { 4 } else { 0 }) {
        let mut lengths = vec![0; 4_096];
        for (term, length) in shared {
            lengths[*term] = *length;
        }
        let library = of_lengths(&mut random, 4_096, &lengths);
        assert_eq!(library.entries.len(), 65_535);
        with_archive(&mut random, &library, |random, archive| {
            let special: Vec<u32> = shared.iter().map(|of| of.0 as u32).chain([0, 1, 256, 4_095]).collect();
            for _ in 0..rounds(100) {
                let typed: Vec<u32> = (0..1 + random.below(8)).map(|_| *random.pick(&special)).collect();
                hold_sentences(archive, &typed);
                ask(archive, &library, &typed, &mut Met::new());
            }
        });
    }
}

/// Random terms of random libraries.
#[test]
fn random_orders() {
    let mut random = Random::new(107);
    let mut met = Met::new();
    for _ in 0..rounds(600) {
        let (n, documents) = (random.of_bits(10), 1 + random.of_bits(6));
        let terms = 1 + random.of_bits(6);
        let library = random::library(&mut random, n, documents, terms);
        with_archive(&mut random, &library, |random, archive| {
            for _ in 0..12 {
                ask(archive, &library, &random::chosen(random, terms), &mut met);
            }
        });
    }
    assert!(quick() || met == Met::from([0, 10, 11]));
}
