//! Sets of documents that are counted as one: the change request's sentences, and sets that are short, long, whole nodes of the tree or spread
//! over it.
use crate::compare::{assert_met, compare, compare_raw, needed, Met};
use crate::faults::compare_with_faults;
use crate::library::{archive, height, Library};
use crate::questions::{answer, Lent, Question, ROOM};
use crate::random::{self, Random};
use crate::raw::FORMS;
use crate::scores::{library, small};
use crate::sweep::with_archive;
use crate::{quick, rounds};
use masuvelior::{Archive, Refusal};

const NO_SLICES: Lent = Lent { first: 0, second: 0 };

/// Every set of these numbers, which ascend.
pub fn subsets(numbers: &[u32]) -> Vec<Vec<u32>> {
    let of =
        |chosen: usize| (0..).zip(numbers).filter(|(i, _)| chosen >> i & 1 == 1).map(|(_, number)| *number).collect();
    (0..1 << numbers.len()).map(of).collect()
}

/// Puts the question in every way.
fn ask(archive: &Archive, library: &Library, set: &[u32], place: u32, met: &mut Met) {
    let question = Question::RankSet { set: set.to_vec(), place };
    compare(archive, library, &question, needed(library, &question), met);
}

/// Places at both ends, at the edges of samples, past the end, and a random one.
fn places(random: &mut Random, n: u32) -> Vec<u32> {
    let mut places: Vec<u32> = [0, 1, 511, 512, 513].into_iter().filter(|place| *place < n).collect();
    places.extend([random.below(n + 1), n.saturating_sub(1), n, n + 1]);
    places
}

/// A set, a place, and the count or the refusal.
type Case<'a> = (&'a [u32], u32, Result<u32, u32>);

/// The cases of the change request, and others by hand: the model says this of each, and so does every way to ask.
#[test]
fn cases_that_tell_readings_apart() {
    let library = small();
    let cases: [Case; 26] = [
        (&[0, 3], 8, Ok(5)),
        (&[0, 3], 3, Ok(2)),
        (&[0, 3], 2, Ok(1)), // the entry at the place is not before it
        (&[0, 3], 0, Ok(0)),
        (&[0, 1], 8, Ok(4)),
        (&[1, 2], 8, Ok(3)),
        (&[0, 2], 8, Ok(3)), // the ends of the set, and not what is between
        (&[0, 1, 3], 8, Ok(7)),
        (&[1, 2, 3], 8, Ok(6)),
        (&[2], 4, Ok(0)),
        (&[2], 5, Ok(1)),
        (&[], 0, Ok(0)),
        (&[], 8, Ok(0)),
        (&[0, 1, 2, 3], 5, Ok(5)),
        (&[0, 1, 2, 3], 8, Ok(8)),
        (&[3, 0], 8, Err(19)),
        (&[1, 1], 8, Err(19)),
        (&[0, 2, 1], 8, Err(19)),
        (&[2, 1, 7], 8, Err(19)),
        (&[7, 7], 9, Err(19)),
        (&[0; 65], 8, Err(19)),
        (&[4], 8, Err(11)),
        (&[0, 4], 8, Err(11)),
        (&[5, u32::MAX], 0, Err(11)),
        (&[0, 3], 9, Err(11)),
        (&[], 9, Err(11)),
    ];
    with_archive(&mut Random::new(91), &library, |_, archive| {
        for (set, place, right) in cases {
            let question = Question::RankSet { set: set.to_vec(), place };
            let model = answer(&library, &question, ROOM).map(|answer| answer.numbers[0]);
            assert_eq!(model, right, "{set:?} before {place}");
            ask(archive, &library, set, place, &mut Met::new());
        }
    });
}

/// Every set of all documents, before every place and the one past n. One document without rows; documents without entries; N beside 2^h.
#[test]
fn every_set_of_small_libraries() {
    let mut random = Random::new(92);
    let mut met = Met::new();
    let mut libraries = vec![small(), library(1, &[&[0, 0, 0]]), library(5, &[&[1, 3], &[3]]), library(8, &[&[], &[]])];
    for (n, documents) in [(9, 2), (9, 3), (12, 6), (12, 7), (14, 8), (9, 9)] {
        libraries.push(random::library(&mut random, n, documents, 2));
    }
    for library in libraries {
        let all: Vec<u32> = (0..library.documents).collect();
        with_archive(&mut random, &library, |_, archive| {
            for set in subsets(&all).iter().step_by(if quick() { 7 } else { 1 }) {
                for place in 0..=archive.entries() + 1 {
                    ask(archive, &library, set, place, &mut met);
                }
            }
        });
    }
    assert_eq!(met, Met::from([0, 11]));
}

/// Every sequence of up to four numbers, ascending or not, documents or not.
#[test]
fn every_short_sequence() {
    let mut met = Met::new();
    let library = small();
    let numbers = [0, 1, 2, 3, 4, u32::MAX];
    with_archive(&mut Random::new(93), &library, |_, archive| {
        for size in 0..=4 {
            let number = |i: usize, place: u32| numbers[i / numbers.len().pow(place) % numbers.len()];
            for i in (0..numbers.len().pow(size)).step_by(if quick() { 13 } else { 1 }) {
                let set: Vec<u32> = (0..size).map(|place| number(i, place)).collect();
                for place in [0, 5, 8, 9] {
                    ask(archive, &library, &set, place, &mut met);
                }
            }
        }
    });
    assert_eq!(met, Met::from([0, 11, 19]));
}

/// What the change request says of a library, beside the question for one document.
fn hold_sentences(random: &mut Random, archive: &Archive) {
    let documents = archive.documents();
    for place in places(random, archive.entries()) {
        let count = |set: &[u32]| archive.rank_set(set, place);
        let of_one = |document: u32| archive.rank(document, place);
        // An empty set counts 0, and the whole library, where it has 64 documents or fewer, counts the place. A place past n is refused.
        let within = of_one(0).map(|_| ());
        assert_eq!(count(&[]), within.map(|()| 0), "none of {archive:?} before {place}");
        let whole: Vec<u32> = (0..documents).collect();
        let right = if documents <= 64 { within.map(|()| place) } else { Err(Refusal::Set) };
        assert_eq!(count(&whole), right, "all of {archive:?} before {place}");
        // A set of one counts as that document does, and is refused as it is.
        for document in [0, documents / 2, documents - 1, documents, u32::MAX] {
            assert_eq!(count(&[document]), of_one(document), "{document} of {archive:?} before {place}");
        }
        // The count of a set is the sum of the counts of its documents.
        let set = random::set(random, documents);
        let sum: Result<u32, Refusal> = set.iter().map(|document| of_one(*document)).sum();
        assert_eq!(count(&set), within.and(sum), "{set:?} of {archive:?} before {place}");
        // Two sets without a document in common add up when they are joined.
        let (one, other): (Vec<u32>, Vec<u32>) = set.iter().partition(|_| random.one_in(2));
        let sum: Result<u32, Refusal> = [count(&one), count(&other)].into_iter().sum();
        assert_eq!(count(&set), sum, "{one:?} and {other:?} of {archive:?} before {place}");
    }
}

#[test]
fn sentences_of_the_request() {
    let mut random = Random::new(94);
    let special = [small(), library(1, &[&[]]), library(1, &[&[0, 0, 0]]), library(64, &[&[]]), library(65, &[&[64]])];
    for library in special {
        with_archive(&mut random, &library, hold_sentences);
    }
    for _ in 0..rounds(300) {
        let (n, terms) = (random.of_bits(11), 1 + random.below(9));
        let documents = *random.pick(&[1, 2, 7, 8, 9, 33, 63, 64, 65, 100, 128, 4_095, 4_096]);
        let library = random::library(&mut random, n, documents, terms);
        with_archive(&mut random, &library, hold_sentences);
    }
}

/// Sets of so many numbers: the first ones, those up to N, some that are spread over the library, and the largest ones of 32 bits.
fn of_length(length: u32, documents: u32) -> [Vec<u32>; 4] {
    let step = (documents / length.max(1)).max(1);
    [
        (0..length).collect(),
        (documents.saturating_sub(length)..).take(length as usize).collect(),
        (0..length).map(|i| i * step).collect(),
        (0..length).map(|i| u32::MAX - length + 1 + i).collect(),
    ]
}

/// Sets of 0 to 140: up to 64 they are answered where they are documents, and above none is.
#[test]
fn sixty_four_and_no_longer() {
    let mut random = Random::new(95);
    for documents in [4, 63, 64, 65, 66, 200, 4_096] {
        let library = random::library(&mut random, 700, documents, 2);
        with_archive(&mut random, &library, |_, archive| {
            for length in 0..=140 {
                let mut met = Met::new();
                for set in of_length(length, documents) {
                    assert!(set.len() == length as usize && set.windows(2).all(|two| two[0] < two[1]));
                    ask(archive, &library, &set, 650, &mut met);
                    ask(archive, &library, &set, 701, &mut met);
                }
                let right: &[u32] = match length {
                    0..=64 if length <= documents => &[0, 11],
                    0..=64 => &[11],
                    _ => &[19],
                };
                assert_eq!(met, right.iter().copied().collect(), "{length} of {documents}");
            }
        });
    }
}

/// Sets of 2 to 64 documents in which two neighbours, wherever they stand, are changed with each other, or one is there twice.
#[test]
fn two_that_do_not_ascend() {
    let mut met = Met::new();
    let library = library(70, &[&[0, 69, 35]]);
    with_archive(&mut Random::new(96), &library, |_, archive| {
        for length in (2..=64).step_by(if quick() { 31 } else { 1 }) {
            let right: Vec<u32> = (3..3 + length).collect();
            for i in 1..right.len() {
                let (mut swapped, mut twice) = (right.clone(), right.clone());
                swapped.swap(i - 1, i);
                twice[i] = twice[i - 1];
                ask(archive, &library, &swapped, 3, &mut met);
                ask(archive, &library, &twice, 3, &mut met);
            }
        }
    });
    assert_eq!(met, Met::from([19]));
}

/// Lengths that 16 bits do not hold, with 64 or fewer in their last 16 bits, and others.
#[test]
fn longer_by_far() {
    let bytes = archive(&small());
    for length in [65_535, 65_536, 65_537, 65_536 + 64, 1 << 20] {
        for set in [(0..length).collect(), vec![0; length as usize]] {
            let question = Question::RankSet { set, place: 8 };
            for form in FORMS {
                compare_raw(&bytes, form, &question, NO_SLICES, &Err(19));
            }
        }
    }
}

/// Every refusal, alone and with each set of others: faults of the archive, of the set, of a document and of the place.
#[test]
fn every_refusal_and_every_order() {
    let long: Vec<u32> = (0..65).collect();
    let mut turned = long.clone();
    turned.swap(0, 1);
    let sets: [&[u32]; 16] = [
        &[],
        &[0, 3],
        &[0, 1, 2, 3],
        &[4],
        &[0, 4],
        &[u32::MAX],
        &long[..64],
        &turned[..64],
        &long,
        &turned,
        &long[1..],
        &[3, 0],
        &[1, 1],
        &[4, 4],
        &[2, 1, 7],
        &[u32::MAX, 0],
    ];
    let mut met = Met::new();
    for (set, place) in sets.into_iter().flat_map(|set| [0, 8, 9, u32::MAX].map(|place| (set, place))) {
        compare_with_faults(&Question::RankSet { set: set.to_vec(), place }, NO_SLICES, &mut met);
    }
    assert_eq!(met, Met::from([0, 1, 2, 3, 4, 5, 6, 7, 8, 9, 11, 19]));
}

/// All numbers of a node, and the same without one of them or with a neighbour of the node.
fn about_a_node(start: u32, size: u32) -> Vec<Vec<u32>> {
    let end = start + size;
    let node: Vec<u32> = (start..end).collect();
    let without = |number: u32| node.iter().copied().filter(|x| *x != number).collect();
    let mut all = vec![node.clone(), without(start), without(start + size / 2), without(end - 1)];
    all.extend([(start..=end).collect(), (start.saturating_sub(1)..end).collect(), (start / 2..end).collect()]);
    all
}

/// Nodes of 1 to 64 numbers, with N at 2^h and beside it, where the last node's numbers are not all documents.
#[test]
fn whole_nodes() {
    let mut random = Random::new(97);
    let mut met = Met::new();
    for documents in [1, 2, 3, 16, 33, 63, 64, 65, 100, 128, 4_095, 4_096] {
        if quick() && !random.one_in(6) {
            continue;
        }
        let n = *random.pick(&[300, 600, 3_000]);
        let entries: Vec<u32> = (0..n).map(|_| random.below(documents)).collect();
        let library = library(documents, &[&entries]);
        with_archive(&mut random, &library, |random, archive| {
            for size in (0..=height(documents).min(6)).map(|k| 1 << k) {
                let nodes = (documents + size - 1) / size;
                let random_nodes: Vec<u32> = (0..6).map(|_| random.below(nodes)).collect();
                for node in [0, nodes - 1].into_iter().chain(random_nodes) {
                    for set in about_a_node(node * size, size) {
                        let place = random.near(n + 1);
                        ask(archive, &library, &set, place, &mut met);
                    }
                }
            }
        });
    }
    assert!(quick() || met == Met::from([0, 11, 19]));
}

/// A set that parts at every node on the way to a document, but not below the node of 2^lowest numbers.
fn along_a_path(random: &mut Random, rows: u32, lowest: u32) -> Vec<u32> {
    let document = random.below(1 << rows);
    let mut set = vec![document];
    set.extend((lowest..rows).map(|row| document ^ (1 << row) ^ random.below(1 << row)));
    set.sort();
    set
}

/// Descents as deep as there are, to every side.
#[test]
fn deepest_descents() {
    let mut random = Random::new(98);
    let mut met = Met::new();
    for documents in [4_096, 2_048, 64, 8] {
        let library = random::library(&mut random, 5_000, documents, 3);
        with_archive(&mut random, &library, |random, archive| {
            for lowest in [0, 1, 2] {
                for _ in 0..rounds(40) {
                    let set = along_a_path(random, height(documents), lowest);
                    let place = random.below(5_001);
                    ask(archive, &library, &set, place, &mut met);
                }
            }
        });
    }
    assert_eq!(met, Met::from([0]));
}

/// Random sets of random libraries, up to their limits.
#[test]
fn random_sets() {
    let mut random = Random::new(99);
    let mut met = Met::new();
    for _ in 0..rounds(600) {
        let (n, documents) = (random.of_bits(12), (1 + random.of_bits(12)).min(4_096));
        let terms = 1 + random.below(5);
        let library = random::library(&mut random, n, documents, terms);
        with_archive(&mut random, &library, |random, archive| {
            for _ in 0..12 {
                let question = random::rank_set(random, &library);
                compare(archive, &library, &question, needed(&library, &question), &mut met);
            }
        });
    }
    assert_met(&met, 0..=0);
    assert_met(&met, 11..=11);
    assert_met(&met, 19..=19);
}

/// At the limits of n and N.
#[test]
fn sets_of_large_libraries() {
    let mut random = Random::new(100);
    let sizes = [(65_535, 4_096), (65_535, 64), (65_024, 2_500), (65_535, 1)];
    for (n, documents) in sizes.into_iter().skip(if quick() { 3 } else { 0 }) {
        let library = random::library(&mut random, n, documents, 3);
        with_archive(&mut random, &library, |random, archive| {
            for _ in 0..rounds(20) {
                let set = random::set(random, documents);
                for place in places(random, n) {
                    ask(archive, &library, &set, place, &mut Met::new());
                }
            }
        });
    }
}
