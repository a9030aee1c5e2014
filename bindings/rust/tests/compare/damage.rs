//! Damaged archives and bytes that never were one: the model's refusal, or the model's library and its answers.
use crate::compare::{assert_met, compare_bytes, Met};
use crate::library::archive;
use crate::random::{library, Random};
use crate::{quick, rounds};

/// Puts a number at an offset.
fn put(bytes: &mut [u8], at: usize, number: u32) {
    bytes[at..at + 4].copy_from_slice(&number.to_le_bytes());
}

/// Each byte of some archives changed to each other value, or to a few where the archive is longer.
#[test]
fn every_byte_changed() {
    let mut random = Random::new(21);
    let mut met = Met::new();
    for (n, documents, terms, values) in [(8, 4, 3, 255), (0, 3, 2, 8), (3, 1, 1, 8), (13, 6, 2, 40), (520, 5, 3, 4)] {
        let library = library(&mut random, n, documents, terms);
        let right = archive(&library);
        for at in 0..right.len() {
            for value in 0..values {
                if quick() && !random.one_in(40) {
                    continue;
                }
                let mut bytes = right.clone();
                bytes[at] ^= match values {
                    255 => value as u8 + 1,
                    _ => 1 + random.below(255) as u8,
                };
                compare_bytes(&mut random, &bytes, 3, &mut met);
            }
        }
    }
    assert_met(&met, 0..=0);
    assert_met(&met, 2..=4);
    assert_met(&met, 6..=9);
}

/// Archives cut short, and with bytes after their end.
#[test]
fn every_length() {
    let mut random = Random::new(22);
    let mut met = Met::new();
    for (n, documents, terms) in [(8, 4, 3), (0, 1, 1), (600, 7, 2)] {
        let library = library(&mut random, n, documents, terms);
        let right = archive(&library);
        for length in 0..=right.len() + 9 {
            let mut bytes = right.clone();
            bytes.resize(length, 0);
            bytes.shrink_to_fit(); // valgrind sees a byte past the end
            compare_bytes(&mut random, &bytes, 10, &mut met);
        }
    }
    assert_met(&met, 0..=1);
    assert_met(&met, 5..=5);
}

/// Damages an archive in one of several ways: a header number, a number of the term table, the length, or bits near its end.
fn damage(random: &mut Random, bytes: &mut Vec<u8>, terms: u32) {
    let length = bytes.len() as u32;
    match random.below(8) {
        0 => {
            let limits = [2, 65_536, 4_097, 4_097, 200, 200, 200, 200, 200, 200];
            let i = random.below(10) as usize;
            put(bytes, 4 * i, random.near(limits[i]));
        }
        1 => {
            let at = 40 + 4 * random.below(2 * terms) as usize;
            put(bytes, at, random.near(20));
        }
        2 => bytes.extend([0; 3]),
        3 => bytes.truncate(random.below(length) as usize),
        _ => {
            let at = (length - 1 - random.below(length.min(24))) as usize;
            bytes[at] ^= 1 << random.below(8);
        }
    }
}

#[test]
fn random_damage() {
    let mut random = Random::new(23);
    let mut met = Met::new();
    for _ in 0..rounds(20_000) {
        let (n, documents, terms) = (random.below(40), 1 + random.below(9), 1 + random.below(4));
        let mut bytes = archive(&library(&mut random, n, documents, terms));
        while bytes.len() >= 40 + 8 * terms as usize {
            damage(&mut random, &mut bytes, terms);
            if !random.one_in(3) {
                break;
            }
        }
        bytes.shrink_to_fit();
        compare_bytes(&mut random, &bytes, 4, &mut met);
    }
    assert_met(&met, 0..=9);
}

/// Entries from N up to 2^h: the rows are those of a larger N, and only the entries tell.
#[test]
fn entries_that_are_no_documents() {
    let mut random = Random::new(24);
    let mut met = Met::new();
    for _ in 0..rounds(2_000) {
        let whole = 1 << (1 + random.below(5));
        let n = random.below(12);
        let mut bytes = archive(&library(&mut random, n, whole, 2));
        let fewer = whole / 2 + 1 + random.below(whole / 2);
        put(&mut bytes, 8, fewer);
        compare_bytes(&mut random, &bytes, 12, &mut met);
    }
    assert_met(&met, 0..=0);
    assert_met(&met, 9..=9);
}

/// The front of an archive, and random bytes after it.
#[test]
fn random_bytes() {
    let mut random = Random::new(25);
    let mut met = Met::new();
    for _ in 0..rounds(6_000) {
        let n = random.below(40);
        let mut bytes = archive(&library(&mut random, n, 5, 2));
        let right = *random.pick(&[0, 4, 8, 12, 16, 40, 56, 64]);
        for byte in bytes.iter_mut().skip(right) {
            *byte = random.next() as u8;
        }
        compare_bytes(&mut random, &bytes, 3, &mut met);
    }
    assert_met(&met, 2..=4);
    assert_met(&met, 6..=7);
}
