//! Whole libraries: every question of small ones, random questions of others.
use crate::compare::{assert_met, compare, compare_random, needed, Met};
use crate::library::{archive, Library};
use crate::questions::{per_mille, Question, Span};
use crate::random::{library, Random};
use crate::sets::subsets;
use crate::{quick, rounds};
use masuvelior::marks::{AND, CLOSE, NOT, OPEN, OR};
use masuvelior::{Archive, Refusal};

/// Opens the model's archive of a library at some place of a larger slice, so that the bytes are aligned in any way.
pub fn with_archive(random: &mut Random, library: &Library, then: impl FnOnce(&mut Random, &Archive)) {
    let before = random.below(9) as usize;
    let mut bytes = vec![0xEE; before];
    bytes.extend(archive(library));
    bytes.shrink_to_fit();
    let archive = Archive::open(&bytes[before..]).expect("the model's archive is accepted");
    then(random, &archive);
}

/// Numbers 0 to the limit and one more, and the largest.
fn around(limit: u32) -> impl Iterator<Item = u32> + Clone {
    (0..=limit + 1).chain([u32::MAX])
}

/// Every question of a library, with the arguments that are within their ranges and those just outside.
fn every_question(library: &Library) -> Vec<Question> {
    let n = library.entries.len() as u32;
    let (documents, terms) = (library.documents, library.lengths.len() as u32);
    let mut all = vec![Question::Read];
    all.extend(around(n).map(|place| Question::Access { place }));
    for document in around(documents) {
        all.extend(around(n).map(|place| Question::Rank { document, place }));
        all.extend(around(n).map(|j| Question::Select { document, j }));
    }
    for set in sets(documents) {
        all.extend(around(n).map(|place| Question::RankSet { set: set.clone(), place }));
    }
    for a in around(n) {
        for b in around(n) {
            of_range(Span::Entries(a, b), library, &mut all);
        }
    }
    for first in around(terms) {
        for last in around(terms) {
            all.push(Question::RangeOfTerms { first, last });
            of_range(Span::Terms(first, last), library, &mut all);
            of_terms(&[first, last], library, &mut all);
        }
    }
    all.extend(questions_with_marks(terms));
    for size in 0..10 {
        let terms: Vec<u32> = (0..size).map(|i| i % terms).collect();
        of_terms(&terms, library, &mut all);
    }
    all
}

/// Every set of the first four documents and the first number that is none, and every two of these in the wrong order, or one of them twice.
fn sets(documents: u32) -> Vec<Vec<u32>> {
    let numbers: Vec<u32> = (0..documents.min(4)).chain([documents]).collect();
    let mut all = subsets(&numbers);
    for (i, x) in numbers.iter().enumerate() {
        all.extend(numbers[..=i].iter().map(|y| vec![*x, *y]));
    }
    all
}

/// Questions with and, or, not: each of two terms in each way, and each number that is an edge, alone.
fn questions_with_marks(terms: u32) -> Vec<Question> {
    let some = || (0..=terms as u16).chain([4_095, 4_096]);
    let mut all: Vec<Vec<u16>> = [AND - 1, AND, OR, NOT, OPEN, CLOSE, CLOSE + 1, u16::MAX].map(|x| vec![x]).to_vec();
    for x in some() {
        all.extend([vec![x], vec![NOT, x], vec![NOT, NOT, x], vec![OPEN, x, CLOSE]]);
        for (y, mark) in some().flat_map(|y| [(y, AND), (y, OR)]) {
            all.extend([vec![x, mark, y], vec![NOT, x, mark, y], vec![x, mark, NOT, y]]);
            all.push(vec![NOT, OPEN, x, mark, y, CLOSE]);
        }
    }
    all.into_iter().map(|question| Question::Boolean { question }).collect()
}

/// Every question of some terms.
fn of_terms(terms: &[u32], library: &Library, all: &mut Vec<Question>) {
    all.push(Question::Conjunction { terms: terms.to_vec() });
    all.push(Question::RarestFirst { terms: terms.to_vec() });
    for k in [0, 1, 2, 4, library.documents, u32::MAX] {
        for allowance in [0, 1, 2, 3, 5, 9, u32::MAX] {
            all.push(Question::Weighted { terms: terms.to_vec(), k, allowance });
        }
    }
}

/// Every question of a range.
fn of_range(span: Span, library: &Library, all: &mut Vec<Question>) {
    all.push(Question::List { span });
    let n = library.entries.len() as u32;
    all.extend(around(n).map(|r| Question::Quantile { span, r }));
    for k in [0, 1, 2, 4, library.documents, u32::MAX] {
        all.push(Question::Probing { span, k });
        for allowance in [0, 1, 2, 3, 5, 9, u32::MAX] {
            all.push(Question::Greedy { span, k, allowance });
        }
    }
}

#[test]
fn every_question_of_small_libraries() {
    let mut random = Random::new(1);
    let mut met = Met::new();
    let sizes = [
        (0, 1, 1),
        (0, 5, 2),
        (1, 2, 1),
        (3, 1, 1),
        (5, 4, 3),
        (6, 3, 2),
        (7, 8, 1),
        (8, 4, 3),
        (9, 7, 4),
        (10, 5, 2),
        (11, 16, 5),
        (12, 2, 2),
    ];
    for (n, documents, terms) in sizes {
        let library = library(&mut random, n, documents, terms);
        with_archive(&mut random, &library, |_, archive| {
            let step = if quick() { 37 } else { 1 };
            for question in every_question(&library).iter().step_by(step) {
                let slices = needed(&library, question);
                compare(archive, &library, question, slices, &mut met);
            }
        });
    }
    assert_met(&met, 0..=0);
    assert_met(&met, 10..=11);
    assert_met(&met, 18..=19);
}

#[test]
fn random_questions_of_small_libraries() {
    let mut random = Random::new(2);
    let mut met = Met::new();
    for _ in 0..rounds(2_000) {
        let (n, documents) = (random.below(70), 1 + random.below(40));
        let terms = 1 + random.below(12);
        let library = library(&mut random, n, documents, terms);
        with_archive(&mut random, &library, |random, archive| {
            compare_random(random, archive, &library, 30, &mut met);
        });
    }
    assert_met(&met, 0..=0);
    assert_met(&met, 10..=13);
    assert_met(&met, 18..=19);
}

/// n at the edges of bytes and samples, N at powers of two and beside them.
#[test]
fn random_questions_at_the_edges() {
    let mut random = Random::new(3);
    let mut met = Met::new();
    for n in [63, 64, 65, 511, 512, 513, 1_023, 1_024, 1_537, 4_096] {
        for documents in [1, 2, 3, 4, 255, 256, 257, 4_095, 4_096] {
            if quick() && !random.one_in(16) {
                continue;
            }
            let terms = *random.pick(&[1, 2, 30, 600]);
            let library = library(&mut random, n, documents, terms);
            with_archive(&mut random, &library, |random, archive| {
                compare_random(random, archive, &library, 12, &mut met);
            });
        }
    }
    assert_met(&met, 0..=0);
}

/// At the limits of n, N and W.
#[test]
fn random_questions_of_large_libraries() {
    let mut random = Random::new(4);
    let mut met = Met::new();
    let sizes = [(65_535, 4_096, 4_096), (65_535, 1, 4_096), (65_024, 2_500, 1), (40_000, 4_095, 16)];
    let sizes = if quick() { &sizes[3..] } else { &sizes[..] };
    for (n, documents, terms) in sizes {
        let library = library(&mut random, *n, *documents, *terms);
        with_archive(&mut random, &library, |random, archive| {
            compare_random(random, archive, &library, rounds(20), &mut met);
        });
    }
    assert_met(&met, 0..=0);
}

#[test]
fn rates() {
    let mut random = Random::new(5);
    let edges = [0, 1, 2, 999, 1_000, 1_001, 65_535, u32::MAX / 1_000, u32::MAX - 1, u32::MAX];
    let mut pairs: Vec<(u32, u32)> = Vec::new();
    for count in edges {
        pairs.extend(edges.map(|size| (count, size)));
    }
    pairs.extend((0..rounds(2_000)).map(|_| (random.next(), random.next())));
    for size in 0..=100 {
        pairs.extend((0..=size + 1).map(|count| (count, size)));
    }
    // Exact halves, an odd number of the 2,000 parts of a size, and what is beside them.
    for _ in 0..rounds(2_000) {
        let (part, odd) = (1 + random.below(2_147_483), 1 + 2 * random.below(1_000));
        pairs.extend([odd * part - 1, odd * part, odd * part + 1].map(|count| (count, 2_000 * part)));
    }
    for (count, size) in pairs {
        let got = masuvelior::per_mille(count, size).map_err(Refusal::number);
        assert_eq!(got, per_mille(count, size), "{count} of {size}");
    }
}
