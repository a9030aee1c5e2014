//! Where a document first stands: list, greedy and probing give beside its count the place of its first entry in the range, counted from entry
//! 0. And the room for three numbers a document.
use crate::ask::{over, Scratch};
use crate::compare::{assert_met, compare, compare_in, needed, Met};
use crate::faults::compare_with_faults;
use crate::library::{archive, Library};
use crate::questions::{answer, Lent, Question, Span};
use crate::random::{self, Random};
use crate::raw::FORMS;
use crate::scores::{library, small};
use crate::sweep::with_archive;
use crate::{quick, rounds};
use masuvelior::Over::{Entries, Terms};
use masuvelior::{write, Archive, Counted, Ended, Refusal};

/// Each document of term 1 stands there several times, and before and behind it too. Term 1 is the entries 5 to 14.
fn repeated() -> Library {
    library(6, &[&[4, 2, 0, 5, 4], &[2, 4, 0, 2, 5, 0, 4, 4, 5], &[0, 2, 4, 5, 5]])
}

/// The documents of term 1, each with its first place there, by hand.
const FIRST: [(u32, usize); 4] = [(0, 7), (2, 5), (4, 6), (5, 9)];

/// That term by hand, as entries and as a term.
#[test]
fn cases_that_tell_readings_apart() -> Result<(), Refusal> {
    let Library { entries, lengths, documents } = repeated();
    let bytes = write(&entries, &lengths, documents)?;
    let archive = Archive::open(&bytes)?;
    for range in [Entries(5..14), Terms(1..=1)] {
        assert_eq!(archive.list(range.clone())?, [(0, 2, 7), (2, 2, 5), (4, 3, 6), (5, 2, 9)]);
        assert_eq!(archive.probing(range.clone(), 6)?, [(4, 3, 6), (0, 2, 7), (2, 2, 5), (5, 2, 9)]);
        let (documents, ended) = archive.greedy(range.clone(), 3, 6)?;
        assert_eq!(documents, [(4, 3, 6), (0, 2, 7), (2, 2, 5)]);
        assert_eq!(ended, Ended::Done { openings: 6 });
        let (documents, ended) = archive.greedy(range, 3, 5)?;
        assert_eq!(documents, [(4, 3, 6), (0, 2, 7)]);
        assert_eq!(ended, Ended::Spent { allowance: 5 });
    }
    Ok(())
}

/// Each wrong reading has other places for all of them: counted from the range's start, the first of the whole list, the last before the range,
/// the second and the last of the range, counted from 1, and the term's number taken for its start.
#[test]
fn readings_are_told_apart() {
    let entries = repeated().entries;
    for (document, right) in FIRST {
        let places: Vec<usize> = (0..entries.len()).filter(|place| entries[*place] == document).collect();
        let (before, after): (Vec<usize>, Vec<usize>) = places.iter().partition(|place| **place < 5);
        let within: Vec<usize> = after.into_iter().filter(|place| *place < 14).collect();
        assert_eq!(within[0], right);
        let from_one = *places.iter().find(|place| **place >= 1).unwrap();
        let (last_before, last) = (before[before.len() - 1], within[within.len() - 1]);
        let wrong = [right - 5, places[0], last_before, within[1], last, right + 1, from_one];
        assert!(!wrong.contains(&right), "document {document}: {right} among {wrong:?}");
    }
}

/// The three questions of a range, greedy with some allowances.
fn questions(span: Span, k: u32) -> Vec<Question> {
    let mut all = vec![Question::List { span }, Question::Probing { span, k }];
    all.extend([0, 2, 5, u32::MAX].map(|allowance| Question::Greedy { span, k, allowance }));
    all
}

/// Beside the model in every way; and beside other questions: with r entries before the range, the place is that of entry r + 1.
fn hold(archive: &Archive, library: &Library, span: Span, k: u32, met: &mut Met) {
    for question in questions(span, k) {
        compare(archive, library, &question, needed(library, &question), met);
    }
    let start = match span {
        Span::Entries(a, _) => a,
        Span::Terms(first, last) => archive.range_of_terms(first..=last).unwrap().start,
    };
    for Counted { document, place, .. } in archive.list(over(span)).unwrap() {
        let before = archive.rank(document, start).unwrap();
        assert_eq!(archive.select(document, before + 1), Ok(place), "{document} in {span:?} of {library:?}");
    }
}

/// Every range of entries and of terms, empty ones too, with k from 0 to past N.
#[test]
fn every_range() {
    let mut met = Met::new();
    let libraries = [repeated(), small(), library(1, &[&[0, 0], &[], &[0]]), library(3, &[&[2, 2, 0], &[2, 0, 2, 2]])];
    for library in libraries {
        with_archive(&mut Random::new(111), &library, |random, archive| {
            let (n, terms) = (archive.entries(), archive.terms());
            let entries = (0..=n).flat_map(|b| (0..=b).map(move |a| Span::Entries(a, b)));
            for span in entries.chain((0..terms).flat_map(|l| (0..=l).map(move |f| Span::Terms(f, l)))) {
                for k in (0..=archive.documents() + 1).chain([u32::MAX]) {
                    if !quick() || random.one_in(20) {
                        hold(archive, &library, span, k, &mut met);
                    }
                }
            }
        });
    }
    assert_eq!(met, Met::from([0]));
}

/// A range of a library that is accepted.
fn some_range(random: &mut Random, archive: &Archive) -> Span {
    let mut two = |limit: u32| {
        let (x, y) = (random.below(limit), random.below(limit));
        (x.min(y), x.max(y))
    };
    let (entries, terms) = (two(archive.entries() + 1), two(archive.terms()));
    match random.one_in(3) {
        true => Span::Terms(terms.0, terms.1),
        false => Span::Entries(entries.0, entries.1),
    }
}

#[test]
fn random_ranges() {
    let (mut random, mut met) = (Random::new(112), Met::new());
    for _ in 0..rounds(300) {
        let (n, documents, terms) = (1 + random.below(700), 1 + random.below(90), 1 + random.below(9));
        let library = random::library(&mut random, n, documents, terms);
        with_archive(&mut random, &library, |random, archive| {
            for _ in 0..6 {
                let (span, k) = (some_range(random, archive), random.near(documents + 1));
                hold(archive, &library, span, k, &mut met);
            }
        });
    }
    assert_eq!(met, Met::from([0]));
}

/// Ranges that start and end at the edges of bytes and samples, and of the longest list.
#[test]
fn ranges_at_the_edges() {
    let (mut random, mut met) = (Random::new(113), Met::new());
    let sizes: &[(u32, u32)] = if quick() { &[(1_030, 7)] } else { &[(1_030, 7), (1_537, 300), (65_535, 4_096)] };
    for (n, documents) in sizes {
        let entries: Vec<u32> = (0..*n).map(|_| random.below(*documents)).collect();
        let library = library(*documents, &[&entries]);
        let edges = [0, 1, 7, 8, 9, 511, 512, 513, 1_023, 1_024, 1_025, n - 1, *n];
        with_archive(&mut random, &library, |_, archive| {
            for a in edges {
                for b in edges.into_iter().filter(|b| a <= *b && (b - a < 600 || a < 2 || a == 513)) {
                    hold(archive, &library, Span::Entries(a, b), 5, &mut met);
                }
            }
        });
    }
    assert_eq!(met, Met::from([0]));
}

/// Places up to the largest: all entries but the last are document 0.
#[test]
fn last_of_the_longest_list() -> Result<(), Refusal> {
    let mut entries = vec![0; 65_535];
    entries[65_534] = 4_095;
    let bytes = write(&entries, &[65_534, 1], 4_096)?;
    let archive = Archive::open(&bytes)?;
    let cases: [(_, &[_]); 5] = [
        (Entries(0..65_535), &[(0, 65_534, 0), (4_095, 1, 65_534)]),
        (Entries(65_533..65_535), &[(0, 1, 65_533), (4_095, 1, 65_534)]),
        (Entries(40_000..65_534), &[(0, 25_534, 40_000)]),
        (Terms(1..=1), &[(4_095, 1, 65_534)]),
        (Entries(65_535..65_535), &[]),
    ];
    for (range, documents) in cases {
        assert_eq!(archive.list(range.clone())?, documents, "{range:?}");
        assert_eq!(archive.probing(range.clone(), 2)?, documents, "{range:?}");
        assert_eq!(archive.greedy(range.clone(), u32::MAX, u32::MAX)?.0, documents, "{range:?}");
    }
    Ok(())
}

/// Puts a question through both C names in slices of these lengths that are full of zeros, ones or other numbers.
fn hold_slices(library: &Library, bytes: &[u8], question: &Question, slices: Lent, met: &mut Met) {
    let right = answer(library, question, slices);
    met.insert(right.as_ref().err().copied().unwrap_or(0));
    for number in [0, 1, u32::MAX] {
        let scratch = Scratch { first: vec![number; slices.first], second: vec![number; slices.second] };
        for form in FORMS {
            compare_in(bytes, form, question, scratch.clone(), &right);
        }
    }
}

/// Answer slices from none to longer than asked for, work slices about what is asked for, k from 0 to past N; of a range, of an empty one, and
/// of terms. One number short is refused and writes nothing; of more, the rest is untouched.
#[test]
fn slices_of_every_length() {
    let library = library(5, &[&[4, 0, 2], &[4, 1], &[], &[3, 3, 3]]);
    let bytes = archive(&library);
    let (mut lists, mut searches) = (Met::new(), Met::new());
    for span in [Span::Entries(1, 7), Span::Entries(4, 4), Span::Terms(1, 3)] {
        for first in 0..=15 + 4 {
            hold_slices(&library, &bytes, &Question::List { span }, Lent { first, second: 0 }, &mut lists);
        }
        for k in [0, 1, 2, 4, 5, 6, u32::MAX] {
            let room = 3 * k.min(5) as usize;
            for (first, second) in (0..=room + 4).flat_map(|first| (18..23).map(move |second| (first, second))) {
                for question in &questions(span, k)[1..] {
                    hold_slices(&library, &bytes, question, Lent { first, second }, &mut searches);
                }
            }
        }
    }
    assert_eq!((lists, searches), (Met::from([0, 12]), Met::from([0, 12, 13])));
}

/// The room by its numbers, which the model has too: 3 × N and 3 × min(k, N), but 2 × where answers are pairs.
#[test]
fn room_asked_for() {
    let library = small();
    let bytes = archive(&library);
    let (span, terms, allowance) = (Span::Terms(0, 2), vec![0, 2], 9);
    let cases = [
        (Question::List { span }, 12),
        (Question::Greedy { span, k: 2, allowance }, 6),
        (Question::Greedy { span, k: 9, allowance }, 12),
        (Question::Probing { span, k: 3 }, 9),
        (Question::Probing { span, k: u32::MAX }, 12),
        (Question::Conjunction { terms: terms.clone() }, 8),
        (Question::Weighted { terms: terms.clone(), k: 3, allowance }, 6),
        (Question::Weighted { terms, k: 9, allowance }, 8),
    ];
    for (question, room) in cases {
        for (first, refusal) in [(room - 1, 12), (room, 0), (room + 1, 0)] {
            let mut met = Met::new();
            hold_slices(&library, &bytes, &question, Lent { first, second: 16 }, &mut met);
            assert_eq!(met, Met::from([refusal]), "{question:?}, lent {first}");
        }
    }
}

/// Every refusal, alone and with each set of others: faults of the archive, of the range, and of both slices.
#[test]
fn every_refusal_and_every_order() {
    let entries = [(0, 8), (3, 8), (4, 4), (5, 4), (0, 9), (9, 9), (u32::MAX, 0)].map(|(a, b)| Span::Entries(a, b));
    let terms = [(0, 2), (2, 2), (2, 1), (0, 3), (3, 3), (0, u32::MAX)].map(|(first, last)| Span::Terms(first, last));
    let mut met = Met::new();
    for span in entries.into_iter().chain(terms) {
        for first in [12, 11, 8, 0] {
            compare_with_faults(&Question::List { span }, Lent { first, second: 0 }, &mut met);
        }
        for question in [Question::Probing { span, k: 2 }, Question::Greedy { span, k: 2, allowance: 9 }] {
            for (first, second) in [(6, 16), (5, 16), (4, 16), (6, 15), (5, 15), (0, 0)] {
                compare_with_faults(&question, Lent { first, second }, &mut met);
            }
        }
    }
    assert_met(&met, 0..=9);
    assert_met(&met, 11..=13);
}
