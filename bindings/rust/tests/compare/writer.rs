//! The writer: the model's bytes, its refusals, and back through the reader.
use crate::compare::{assert_met, Met};
use crate::library::{self, Library};
use crate::random::{self, Random};
use crate::{quick, rounds};
use masuvelior::{archive_length, write, write_into, Archive, Refusal};

/// Writes into a target of this length that is full of other bytes: the model's outcome, and the rest untouched.
fn compare_target(library: &Library, right: Result<&[u8], u32>, length: usize, met: &mut Met) {
    let mut target: Vec<u8> = (0..=255).rev().cycle().take(length).collect();
    let mut after = target.clone();
    if let Ok(bytes) = right {
        after[..bytes.len()].copy_from_slice(bytes);
    }
    let Library { entries, lengths, documents } = library;
    let got = write_into(entries, lengths, *documents, &mut target).map_err(Refusal::number);
    met.insert(got.err().unwrap_or(0));
    assert_eq!(got, right.map(<[u8]>::len), "{library:?} into {length}");
    assert!(target == after, "{library:?} into {length}");
}

/// Writes a library in each way, and reads it back.
fn compare_writer(library: &Library, met: &mut Met) {
    let Library { entries, lengths, documents } = library;
    let right = library::write(library);
    let got = write(entries, lengths, *documents).map_err(Refusal::number);
    assert_eq!(got, right, "{library:?}");
    if let Ok(bytes) = &got {
        let length = archive_length(entries.len(), *documents, lengths.len());
        assert_eq!(length, Ok(bytes.len()));
        let archive = Archive::open(bytes).expect("what the writer wrote is an archive");
        assert_eq!(archive.read(), (entries.clone(), lengths.clone()));
    }
    let length = got.map_or(100, |bytes| bytes.len());
    for target in [0, length - 1, length, length + 1, length + 100] {
        compare_target(library, library::fitting(&right, target), target, met);
    }
}

/// Makes a library wrong in one way or another, or leaves it.
fn spoil(random: &mut Random, library: &mut Library) {
    let (n, terms) = (library.entries.len() as u32, library.lengths.len() as u32);
    match random.below(12) {
        0 => library.documents = *random.pick(&[0, 4_097, u32::MAX]),
        1 => library.lengths.clear(),
        2 => library.lengths[random.below(terms) as usize] = *random.pick(&[0, 1, u32::MAX]),
        3 => library.lengths.push(1),
        4 if n > 0 => {
            let place = random.below(n) as usize;
            library.entries[place] = random.near(library.documents);
        }
        5 if n > 0 => {
            library.entries.pop();
        }
        _ => {}
    }
}

#[test]
fn written_as_the_model_writes() {
    let mut random = Random::new(11);
    let mut met = Met::new();
    for _ in 0..rounds(1_500) {
        let n = random.near(600).min(700);
        let (documents, terms) = (1 + random.below(20), 1 + random.below(9));
        let mut library = random::library(&mut random, n, documents, terms);
        spoil(&mut random, &mut library);
        compare_writer(&library, &mut met);
    }
    assert_met(&met, 0..=0);
    assert_met(&met, 14..=17);
}

/// n, N and W at their limits and one above, and sums of lengths that a 32-bit number does not hold.
#[test]
fn limits_of_the_writer() {
    let mut met = Met::new();
    for (n, documents, terms) in [
        (65_535, 4_096, 4_096),
        (65_536, 4_096, 1),
        (0, 4_096, 4_096),
        (0, 4_097, 1),
        (0, 1, 4_097),
        (1, 1, 1),
        (1, 0, 1),
        (0, 1, 0),
    ] {
        if quick() && n == 65_535 {
            continue;
        }
        let mut lengths = vec![0; terms];
        if let Some(last) = lengths.last_mut() {
            *last = n;
        }
        let entries = (0..n).map(|i| i % u32::max(documents, 1)).collect();
        let library = Library { entries, lengths, documents };
        compare_writer(&library, &mut met);
    }
    let wrapping = Library { entries: vec![0; 3], lengths: vec![u32::MAX, 4], documents: 1 };
    compare_writer(&wrapping, &mut met);
    assert_met(&met, 14..=14);
    assert_met(&met, 16..=16);
}

#[test]
fn lengths_of_archives() {
    let mut random = Random::new(12);
    for _ in 0..rounds(300) {
        let n = random.near(3_000).min(70_000) as usize;
        let (documents, terms) = (random.near(4_097), random.near(4_097) as usize);
        let within = n <= 65_535 && (1..=4_096).contains(&documents) && (1..=4_096).contains(&terms);
        let got = archive_length(n, documents, terms);
        if !within {
            assert_eq!(got, Err(Refusal::WriterLimits));
            continue;
        }
        let mut lengths = vec![0; terms];
        lengths[0] = n as u32;
        let entries = vec![0; n];
        let library = Library { entries, lengths, documents };
        assert_eq!(got, Ok(library::archive(&library).len()));
    }
    assert_eq!(archive_length(usize::MAX, 1, 1), Err(Refusal::WriterLimits));
    assert_eq!(archive_length(1 << 32, 1, 1), Err(Refusal::WriterLimits));
}
