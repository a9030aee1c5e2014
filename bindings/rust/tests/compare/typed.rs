//! Whichever way some terms are typed, in any order and repeated: their order is the same, and so is all that a weighted search answers.
use crate::compare::{compare, needed, Met};
use crate::library::Library;
use crate::orders::{ask, of_lengths};
use crate::questions::Question;
use crate::quick;
use crate::random::Random;
use crate::scores::library;
use crate::sweep::with_archive;
use masuvelior::{Archive, Ended, Scored};
use std::collections::BTreeSet;

/// Weighted searches of these terms, whole and cut short: their documents with their scores, whether they are done, and the number of that.
fn searches(archive: &Archive, terms: &[u32]) -> [(Vec<Scored>, Ended); 4] {
    [(u32::MAX, u32::MAX), (2, u32::MAX), (3, 3), (u32::MAX, 5)]
        .map(|(k, allowance)| archive.weighted(terms, k, allowance).unwrap())
}

/// Five terms: of one to seven entries; of as many each; without entries, with all documents, and with one of them.
fn of_five_terms() -> [Library; 3] {
    [
        library(8, &[&[5, 1, 1], &[1, 5, 5, 3, 6], &[7], &[0, 1, 1, 1, 2, 3, 5], &[2, 4, 4, 4]]),
        library(8, &[&[0, 5], &[5, 3], &[2, 7], &[6, 6], &[7, 1]]),
        library(9, &[&[3, 3, 3], &[], &[0, 1, 2, 3, 4, 5, 6, 7, 8], &[8], &[]]),
    ]
}

/// All ways to type so many of five terms, repeated ones too.
fn ways(size: u32) -> impl Iterator<Item = Vec<u32>> {
    (0..5usize.pow(size)).map(move |way| (0..size).map(|place| (way / 5usize.pow(place) % 5) as u32).collect())
}

/// The 3,905 ways to type one to five of five terms: the model's order and its weighted answer, and those of the same terms typed ascending,
/// each once.
#[test]
fn every_way_to_type_five() {
    let (mut random, mut met, mut asked) = (Random::new(103), Met::new(), 0);
    for library in of_five_terms() {
        with_archive(&mut random, &library, |_, archive| {
            let mut ends = BTreeSet::new();
            for typed in (1..=5).flat_map(ways).step_by(if quick() { 53 } else { 1 }) {
                let ascending: Vec<u32> = (0..5).filter(|term| typed.contains(term)).collect();
                ask(archive, &library, &typed, &mut met);
                assert_eq!(archive.rarest_first(&typed), archive.rarest_first(&ascending), "{typed:?} of {library:?}");
                let searches = [&typed, &ascending].map(|terms| searches(archive, terms));
                assert_eq!(searches[0], searches[1], "{typed:?} of {library:?}");
                ends.extend(searches[0].iter().map(|(_, ended)| matches!(ended, Ended::Done { .. })));
                let weighted = Question::Weighted { terms: typed, k: 4, allowance: 4 };
                compare(archive, &library, &weighted, needed(&library, &weighted), &mut met);
                asked += 1;
            }
            assert_eq!(ends, BTreeSet::from([false, true]), "{library:?}");
        });
    }
    assert_eq!(met, Met::from([0]));
    assert!(quick() || asked == 3 * 3_905);
}

/// One permutation of these for each number below the factorial of how many they are.
fn permutation(mut number: usize, of: &[u32]) -> Vec<u32> {
    let mut left = of.to_vec();
    let mut permuted = Vec::new();
    while !left.is_empty() {
        let size = left.len();
        permuted.push(left.remove(number % size));
        number /= size;
    }
    permuted
}

/// The 40,320 permutations of eight terms: each of its own length; of three lengths; all of one; and the last with more, or the first with
/// fewer, than the others.
#[test]
fn every_permutation_of_eight() {
    let (mut random, mut met, mut permutations) = (Random::new(104), Met::new(), BTreeSet::new());
    let all: Vec<u32> = (0..8).collect();
    for lengths in [
        [4, 0, 7, 1, 6, 2, 5, 3],
        [2, 0, 2, 1, 1, 0, 2, 1],
        [3, 3, 3, 3, 3, 3, 3, 3],
        [2, 2, 2, 2, 2, 2, 2, 4],
        [0, 1, 1, 1, 1, 1, 1, 1],
    ] {
        let library = of_lengths(&mut random, 16, &lengths);
        with_archive(&mut random, &library, |_, archive| {
            let weighted = archive.weighted(&all, 5, 9).unwrap();
            for number in (0..40_320).step_by(if quick() { 997 } else { 1 }) {
                let typed = permutation(number, &all);
                ask(archive, &library, &typed, &mut met);
                assert_eq!(archive.weighted(&typed, 5, 9).unwrap(), weighted, "{typed:?} of {library:?}");
                permutations.insert(typed);
            }
        });
    }
    assert_eq!(met, Met::from([0]));
    assert!(quick() || permutations.len() == 40_320);
}
