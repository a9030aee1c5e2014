//! Places: a walk over those of a document, j = 1, 2, .., meets them all, ascending, and ends at n; where they are says the plain list. Each question
//! is put through the crate and through both C names.
use crate::ask::Scratch;
use crate::library::Library;
use crate::questions::{answer, Question, ROOM};
use crate::random::{self, Random};
use crate::raw::{ask, Form, FORMS};
use crate::sweep::with_archive;
use crate::{quick, rounds};
use masuvelior::{Archive, Argument, Refusal};

/// Asks through a C name: what it answers, and what is in the out-parameter, which held `before`.
fn raw(bytes: &[u8], form: Form, document: u32, j: u32, before: u32) -> (u32, u32) {
    let mut out = [before; 3];
    let number = ask(bytes, form, &Question::Select { document, j }, &mut Scratch::new(0, 0), &mut out);
    (number, out[0])
}

/// The place that the crate answers and both C names write.
fn place(archive: &Archive, document: u32, j: u32) -> u32 {
    let place = archive.select(document, j).expect("a document below N, and j from 1");
    for form in FORMS {
        let got = raw(archive.bytes(), form, document, j, !place);
        assert_eq!(got, (0, place), "entry {j} of document {document}, {form:?}, {archive:?}");
    }
    place
}

/// Asks for j = 1, 2, .. until the answer is n: the places before it, one question for each and one for the end.
fn walk(n: u32, ask: impl Fn(u32) -> u32) -> Vec<u32> {
    let mut met = Vec::new();
    loop {
        let place = ask(met.len() as u32 + 1);
        if place == n {
            return met;
        }
        assert!(place < n && met.last() < Some(&place), "{place} after {met:?}, where n is {n}");
        met.push(place);
    }
}

/// The places of each document, by the list alone.
fn places(library: &Library) -> Vec<Vec<u32>> {
    let mut places = vec![vec![]; library.documents as usize];
    for (place, entry) in (0..).zip(&library.entries) {
        places[*entry as usize].push(place);
    }
    places
}

/// The walk over a document, and n for every j behind its end.
fn hold_walk(archive: &Archive, document: u32, places: &[u32]) {
    let (n, count) = (archive.entries(), places.len() as u32);
    assert_eq!(walk(n, |j| place(archive, document, j)), places, "document {document} of {archive:?}");
    assert_eq!(archive.rank(document, n), Ok(count));
    for j in [count + 1, count + 2, n + 1, n + 2, 1 << 16, 1 << 31, u32::MAX - 1, u32::MAX] {
        assert_eq!(place(archive, document, j), n, "entry {j} of document {document}, of which there are {count}");
    }
}

/// Refused as 11; nothing is written.
fn hold_refused(archive: &Archive, document: u32, j: u32, argument: Argument) {
    assert_eq!(archive.select(document, j), Err(Refusal::Argument(argument)));
    for form in FORMS {
        for before in [0xC001_0001, archive.entries(), 0, u32::MAX] {
            let got = raw(archive.bytes(), form, document, j, before);
            assert_eq!(got, (11, before), "entry {j} of document {document}, {form:?}, {archive:?}");
        }
    }
}

/// All of it for a library. A short run takes a few of many documents.
fn hold(random: &mut Random, library: &Library) {
    let step = if quick() && library.documents > 100 { 97 } else { 1 };
    with_archive(random, library, |_, archive| {
        let (n, documents) = (archive.entries(), archive.documents());
        for (document, places) in (0..).zip(&places(library)).step_by(step) {
            hold_walk(archive, document, places);
            hold_refused(archive, document, 0, Argument::Occurrence);
        }
        for document in (documents..documents + 4).chain([1 << 31, u32::MAX]) {
            for j in [0, 1, 2, n, n + 1, u32::MAX] {
                hold_refused(archive, document, j, Argument::Document);
            }
        }
    });
}

/// A library of one term.
fn of(entries: &[u32], documents: u32) -> Library {
    Library { entries: entries.to_vec(), lengths: vec![entries.len() as u32], documents }
}

/// The small library; no entries, without rows and with them; one document; documents without entries before, between and behind others.
fn small() -> Vec<Library> {
    vec![
        Library { entries: vec![3, 1, 0, 3, 2, 1, 3, 0], lengths: vec![3, 0, 5], documents: 4 },
        of(&[], 1),
        of(&[], 4),
        of(&[], 4_096),
        of(&[0], 1),
        of(&[0; 3], 1),
        of(&[0; 513], 1),
        of(&[1, 3, 3], 5),
        of(&[0; 20], 8),
        of(&[7; 20], 8),
        of(&[4_095, 0, 2_048, 0], 4_096),
    ]
}

/// So many libraries of all kinds, none of them large.
fn random_libraries(random: &mut Random, count: usize) -> Vec<Library> {
    let mut library = || {
        let (n, documents, terms) = (random.below(700), 1 + random.below(60), 1 + random.below(9));
        random::library(random, n, documents, terms)
    };
    (0..count).map(|_| library()).collect()
}

#[test]
fn walks_of_small_libraries() {
    let mut random = Random::new(61);
    for library in small() {
        hold(&mut random, &library);
    }
}

/// The third 0 of the small library is at 8.
#[test]
fn third_of_two() {
    let library = &small()[0];
    with_archive(&mut Random::new(62), library, |_, archive| {
        assert_eq!([1, 2, 3, 4].map(|j| place(archive, 0, j)), [2, 7, 8, 8]);
    });
}

#[test]
fn walks_of_random_libraries() {
    let mut random = Random::new(63);
    for library in random_libraries(&mut random, rounds(200)) {
        hold(&mut random, &library);
    }
}

/// n at the edges of samples, and at its limit.
#[test]
fn walks_at_the_edges() {
    let mut random = Random::new(64);
    let mut sizes = vec![(511, 2), (512, 3), (513, 64), (1_024, 2), (1_025, 7), (4_096, 4_096)];
    if !quick() {
        sizes.extend([(65_535, 1), (65_535, 2), (65_534, 100), (65_535, 4_096)]);
    }
    for (n, documents) in sizes {
        let entries: Vec<u32> = (0..n).map(|_| random.below(documents)).collect();
        hold(&mut random, &of(&entries, documents));
    }
}

/// The model that all other tests of select are held to has the list's walks too.
#[test]
fn walks_of_the_model() {
    let mut random = Random::new(65);
    for library in small().into_iter().chain(random_libraries(&mut random, rounds(50))) {
        let n = library.entries.len() as u32;
        for (document, places) in (0..).zip(&places(&library)) {
            let model = |j: u32| answer(&library, &Question::Select { document, j }, ROOM).unwrap().numbers[0];
            assert_eq!(walk(n, model), *places, "document {document} of {library:?}");
            assert_eq!(model(u32::MAX), n);
        }
    }
}

/// Bytes that are no archive are refused as such, whether the entry would be there, is missing or is asked for in a wrong way.
#[test]
fn no_archive() {
    with_archive(&mut Random::new(66), &small()[0], |_, archive| {
        let cut = &archive.bytes()[..73];
        for (document, j) in [(0, 2), (0, 3), (0, 0), (4, 1)] {
            assert_eq!(raw(cut, Form::Checked, document, j, 0xC001_0001), (5, 0xC001_0001));
        }
    });
}
