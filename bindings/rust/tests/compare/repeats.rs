//! Repeated terms count once: every pattern of one to eight terms among three, beside the model and beside the different terms alone. And their
//! refusals, for which all that are given count.
use crate::ask::whole;
use crate::compare::{compare, needed, Met};
use crate::library::Library;
use crate::questions::{answer, Question, ROOM};
use crate::quick;
use crate::random::Random;
use crate::scores::{library, small};
use crate::sweep::with_archive;
use crate::weighted::weight;
use masuvelior::Archive;
use std::collections::BTreeSet;

/// A library, and three of its terms, of which patterns are made. One in `step` of them is asked.
struct Case {
    library: Library,
    three: [u32; 3],
    step: usize,
}

/// Three terms that weigh 8, 4 and 2; documents 1 and 5 have all of them, document 3 has two.
const WEIGHED: [&[u32]; 3] = [&[5, 1, 1], &[1, 5, 5, 3, 6], &[0, 1, 1, 1, 2, 3, 5]];

/// Three terms with entries; the small library, whose term 1 has none; and terms that differ in their higher byte alone.
fn cases() -> [Case; 3] {
    let mut apart: Vec<&[u32]> = vec![&[]; 513];
    for (term, list) in [0, 256, 512].into_iter().zip(WEIGHED) {
        apart[term] = list;
    }
    [
        Case { library: library(8, &WEIGHED), three: [0, 1, 2], step: 1 },
        Case { library: small(), three: [0, 1, 2], step: 1 },
        Case { library: library(8, &apart), three: [512, 0, 256], step: 5 },
    ]
}

/// All patterns of so many terms among three.
fn patterns(size: u32, three: [u32; 3]) -> impl Iterator<Item = Vec<u32>> {
    let term = move |pattern: usize, place: u32| three[pattern / 3usize.pow(place) % 3];
    (0..3usize.pow(size)).map(move |pattern| (0..size).map(|place| term(pattern, place)).collect())
}

/// Those of the three that are given, in the order of where each stands first.
fn different(given: &[u32], three: [u32; 3]) -> Vec<u32> {
    let first = |term: &u32| given.iter().position(|x| x == term);
    let mut different: Vec<u32> = three.into_iter().filter(|term| first(term).is_some()).collect();
    different.sort_by_key(first);
    different
}

/// All questions of these terms, the weighted search whole and cut short in one of many ways.
fn questions(terms: &[u32], way: u32) -> [Question; 4] {
    let terms = terms.to_vec();
    [
        Question::Conjunction { terms: terms.clone() },
        Question::Weighted { terms: terms.clone(), k: u32::MAX, allowance: u32::MAX },
        Question::RarestFirst { terms: terms.clone() },
        Question::Weighted { terms, k: way % 7, allowance: way % 8 },
    ]
}

/// All questions of these terms, in every way, beside the model.
fn compare_all(archive: &Archive, library: &Library, terms: &[u32], met: &mut Met) {
    for question in questions(terms, terms.len() as u32) {
        compare(archive, library, &question, needed(library, &question), met);
    }
}

/// Each case with its archive.
fn with_cases(seed: u64, mut then: impl FnMut(&Archive, &Case)) {
    let mut random = Random::new(seed);
    for case in cases() {
        with_archive(&mut random, &case.library, |_, archive| then(archive, &case));
    }
}

/// 9,840 patterns of each of the first two libraries, and a fifth of them of the third: the model's answers, and those of the different terms
/// alone.
#[test]
fn every_pattern() {
    let (mut met, mut asked) = (Met::new(), Vec::new());
    with_cases(51, |archive, Case { library, three, step }| {
        let patterns = (0..).zip((1..=8).flat_map(|size| patterns(size, *three)));
        let mut count = 0;
        for (way, given) in patterns.step_by(if quick() { 97 } else { *step }) {
            let alone = questions(&different(&given, *three), way);
            for (question, alone) in questions(&given, way).iter().zip(&alone) {
                compare(archive, library, question, needed(library, question), &mut met);
                assert_eq!(whole(archive, question), whole(archive, alone), "{question:?} of {library:?}");
            }
            count += 1;
        }
        asked.push(count);
    });
    assert_eq!(met, Met::from([0]));
    assert!(quick() || asked == [9_840, 9_840, 1_968]);
}

/// In the first library each term has a weight of its own, and each of the seven sets of terms its own answers, so that a term too many or too
/// few would show.
#[test]
fn sets_are_told_apart() {
    let library = &cases()[0].library;
    let df = |list: &[u32]| list.iter().collect::<BTreeSet<_>>().len() as u32;
    assert_eq!(WEIGHED.map(|list| weight(8, df(list))), [8, 4, 2]);
    let sets: [&[u32]; 7] = [&[0], &[1], &[2], &[0, 1], &[0, 2], &[1, 2], &[0, 1, 2]];
    for (i, x) in sets.iter().enumerate() {
        for y in &sets[..i] {
            for (of_x, of_y) in questions(x, 0).iter().zip(&questions(y, 0)).take(3) {
                assert_ne!(answer(library, of_x, ROOM), answer(library, of_y, ROOM), "{x:?} and {y:?}");
            }
        }
    }
}

/// Nine or more are refused as 10, however few of them differ.
#[test]
fn more_than_eight() {
    let mut met = Met::new();
    with_cases(52, |archive, Case { library, three, .. }| {
        for size in 9..=20 {
            for term in three.iter().copied().chain([archive.terms(), u32::MAX]) {
                compare_all(archive, library, &vec![term; size], &mut met);
            }
        }
        for given in patterns(9, *three).step_by(if quick() { 997 } else { 5 }) {
            compare_all(archive, library, &given, &mut met);
        }
    });
    assert_eq!(met, Met::from([10]));
}

/// Eight different terms are answered; with one of them again, wherever it stands, they are nine.
#[test]
fn eight_and_one_of_them_again() {
    let (mut eight, mut nine) = (Met::new(), Met::new());
    let lists: Vec<Vec<u32>> = (0..8).map(|term| (0..=term).chain([0]).collect()).collect();
    let lists: Vec<&[u32]> = lists.iter().map(Vec::as_slice).collect();
    let library = library(9, &lists);
    with_archive(&mut Random::new(53), &library, |_, archive| {
        let all: Vec<u32> = (0..8).rev().collect();
        compare_all(archive, &library, &all, &mut eight);
        for (place, term) in (0..=8).flat_map(|place| (0..8).map(move |term| (place, term))) {
            let mut given = all.clone();
            given.insert(place, term);
            compare_all(archive, &library, &given, &mut nine);
        }
    });
    assert_eq!((eight, nine), (Met::from([0]), Met::from([10])));
}

/// A term that is W or more is refused as 11 among repeated ones, in every place and in every two places.
#[test]
fn unknown_among_repeated() {
    let mut met = Met::new();
    with_cases(54, |archive, Case { library, three, .. }| {
        let given = three.map(|term| vec![term; 8]).into_iter().chain([three.repeat(3)]);
        for (given, unknown) in given.flat_map(|given| [archive.terms(), u32::MAX].map(|x| (given.clone(), x))) {
            for size in if quick() { 8..=8 } else { 1..=8 } {
                for (x, y) in (0..size).flat_map(|x| (0..=x).map(move |y| (x, y))) {
                    let mut given = given[..size].to_vec();
                    (given[x], given[y]) = (unknown, unknown);
                    compare_all(archive, library, &given, &mut met);
                }
            }
        }
    });
    assert_eq!(met, Met::from([11]));
}

/// What stands behind the given terms is not looked at: one of them again, another term, or none. `raw` has none there for the C names.
#[test]
fn behind_the_given() {
    with_cases(55, |archive, Case { three, .. }| {
        let behind = three.iter().copied().chain([archive.terms(), u32::MAX]);
        for (size, behind) in (1..=8).flat_map(|size| behind.clone().map(move |term| (size, term))) {
            for given in patterns(size, *three).step_by(if quick() { 97 } else { 7 }) {
                let more = [&given[..], &[behind; 8]].concat();
                let front = &more[..given.len()];
                assert_eq!(archive.conjunction(front), archive.conjunction(&given), "{more:?}");
                assert_eq!(archive.weighted(front, 9, 9), archive.weighted(&given, 9, 9), "{more:?}");
                assert_eq!(archive.rarest_first(front), archive.rarest_first(&given), "{more:?}");
            }
        }
    });
}
