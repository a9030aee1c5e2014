//! Random numbers from a fixed seed, and random libraries and questions made of them.
use crate::library::Library;
use crate::questions::{Lent, Question, Span};
use masuvelior::marks::{AND, CLOSE, NOT, OPEN, OR};
use std::collections::BTreeSet;

/// A xorshift generator.
pub struct Random(u64);

impl Random {
    /// Another seed gives other numbers.
    pub fn new(seed: u64) -> Random {
        Random(seed.wrapping_mul(0x9E37_79B9_7F4A_7C15) | 1)
    }

    pub fn next(&mut self) -> u32 {
        self.0 ^= self.0 << 13;
        self.0 ^= self.0 >> 7;
        self.0 ^= self.0 << 17;
        (self.0.wrapping_mul(0x2545_F491_4F6C_DD1D) >> 32) as u32
    }

    /// A number from 0 up to but without the bound; 0 where that is 0.
    pub fn below(&mut self, bound: u32) -> u32 {
        ((u64::from(self.next()) * u64::from(bound)) >> 32) as u32
    }

    /// A number of at most so many bits: small ones as often as large ones.
    pub fn of_bits(&mut self, bits: u32) -> u32 {
        let bound = 1 << self.below(bits + 1);
        self.below(bound)
    }

    pub fn one_in(&mut self, times: u32) -> bool {
        self.below(times) == 0
    }

    pub fn pick<'a, T>(&mut self, from: &'a [T]) -> &'a T {
        &from[self.below(from.len() as u32) as usize]
    }

    /// An argument that has this limit: mostly below it, at times at its edges, seldom far outside.
    pub fn near(&mut self, limit: u32) -> u32 {
        match self.below(24) {
            0 => limit,
            1 => limit + 1,
            2 => limit.saturating_sub(1),
            3 => 0,
            4 => *self.pick(&[u32::MAX, u32::MAX - 1, 1 << 31, 1 << 16, 4_096]),
            _ => self.below(limit),
        }
    }
}

/// A library of n entries. Its entries are spread in one of several ways, and some of its terms are empty.
pub fn library(random: &mut Random, n: u32, documents: u32, terms: u32) -> Library {
    let way = random.below(6);
    let entry = |random: &mut Random, place: u32| match way {
        0 => random.below(documents),
        1 => {
            let bound = 1 + random.below(documents);
            random.below(bound)
        }
        2 => random.below(documents.min(3)),
        3 => documents - 1 - random.below(documents.min(3)),
        4 => place % documents,
        _ => documents / 2,
    };
    Library {
        entries: (0..n).map(|place| entry(random, place)).collect(),
        lengths: lengths(random, n, terms),
        documents,
    }
}

/// So many lengths that add up to n.
fn lengths(random: &mut Random, n: u32, terms: u32) -> Vec<u32> {
    let mut ends: Vec<u32> = (1..terms).map(|_| random.below(n + 1)).collect();
    ends.push(n);
    ends.sort();
    let starts = [0].into_iter().chain(ends.iter().copied());
    ends.iter().zip(starts).map(|(end, start)| end - start).collect()
}

/// A range: mostly a good one.
pub fn span(random: &mut Random, library: &Library) -> Span {
    let entries = random.one_in(2);
    let limit = match entries {
        true => library.entries.len() as u32 + 1,
        false => library.lengths.len() as u32,
    };
    let (mut x, mut y) = (random.near(limit), random.near(limit));
    if x > y && !random.one_in(16) {
        (x, y) = (y, x);
    }
    match entries {
        true => Span::Entries(x, y),
        false => Span::Terms(x, y),
    }
}

/// A question: mostly one that is answered.
pub fn question(random: &mut Random, library: &Library) -> Question {
    let n = library.entries.len() as u32;
    let (documents, terms) = (library.documents, library.lengths.len() as u32);
    let span = span(random, library);
    match random.below(20) {
        0 => Question::Read,
        1 => Question::Access { place: random.near(n) },
        2 => Question::Rank { document: random.near(documents), place: random.near(n + 1) },
        3 => Question::Select { document: random.near(documents), j: random.near(3 + 2 * n / documents) },
        4 => Question::Quantile { span, r: random.near(n / 2 + 1) },
        5 => Question::List { span },
        6 => Question::RangeOfTerms { first: random.near(terms), last: random.near(terms) },
        7 => Question::Probing { span, k: random.near(documents + 1) },
        8 | 9 => Question::Conjunction { terms: chosen(random, terms) },
        10 | 11 => weighted(random, library),
        12 | 13 => boolean(random, terms),
        14 | 15 => rank_set(random, library),
        16 | 17 => Question::RarestFirst { terms: chosen(random, terms) },
        _ => Question::Greedy { span, k: random.near(documents + 1), allowance: random.near(2 * documents) },
    }
}

/// The count of a set: mostly one that is answered.
pub fn rank_set(random: &mut Random, library: &Library) -> Question {
    let mut set = set(random, library.documents);
    if random.one_in(8) {
        spoil_set(random, library.documents, &mut set);
    }
    Question::RankSet { set, place: random.near(library.entries.len() as u32 + 1) }
}

/// Up to 64 documents, ascending: all over the library, or near each other.
pub fn set(random: &mut Random, documents: u32) -> Vec<u32> {
    let size = random.of_bits(7).min(64);
    let among = (1 + random.of_bits(12)).min(documents);
    let from = random.below(documents - among + 1);
    let set: BTreeSet<u32> = (0..size).map(|_| from + random.below(among)).collect();
    set.into_iter().collect()
}

/// Puts a number before, between or behind those of the set, turns a part of it around, or makes it longer.
fn spoil_set(random: &mut Random, documents: u32, set: &mut Vec<u32>) {
    let place = random.below(set.len() as u32 + 1) as usize;
    match random.below(4) {
        0 => set.insert(place, random.near(documents)),
        1 => set.push(random.near(documents)),
        2 => set[place..].reverse(),
        _ => set.extend((documents..).take(64 - place.min(4))),
    }
}

/// A weighted search: mostly one that is answered.
pub fn weighted(random: &mut Random, library: &Library) -> Question {
    let documents = library.documents;
    Question::Weighted {
        terms: chosen(random, library.lengths.len() as u32),
        k: random.near(documents + 1),
        allowance: random.near(2 * documents),
    }
}

/// Mostly one to three terms; at times none, up to eight, or more.
pub fn chosen(random: &mut Random, terms: u32) -> Vec<u32> {
    let size = match random.below(8) {
        0 => random.below(11),
        _ => 1 + random.below(3),
    };
    (0..size)
        .map(|_| match random.below(20) {
            0 => random.near(terms),
            _ => random.below(terms),
        })
        .collect()
}

/// A question with and, or, not: mostly one that is answered.
pub fn boolean(random: &mut Random, terms: u32) -> Question {
    let size = random.of_bits(5);
    let mut question = Vec::new();
    expression(random, terms, size, &mut question);
    if random.one_in(8) {
        spoil(random, &mut question);
    }
    Question::Boolean { question }
}

/// An expression with so many marks between its terms, and some brackets and 'not' that it may not need.
fn expression(random: &mut Random, terms: u32, marks: u32, question: &mut Vec<u16>) {
    for _ in 0..random.below(5).saturating_sub(2) {
        question.push(NOT);
    }
    let bracket = random.one_in(4);
    if bracket {
        question.push(OPEN);
    }
    if marks == 0 {
        let term = if random.one_in(100) { random.near(terms) } else { random.below(terms) };
        question.push(term as u16);
    } else {
        let first = random.below(marks);
        expression(random, terms, first, question);
        question.push(*random.pick(&[AND, OR]));
        expression(random, terms, marks - 1 - first, question);
    }
    if bracket {
        question.push(CLOSE);
    }
}

/// Changes a number of the question, takes it away, puts one before it, or cuts the question there.
fn spoil(random: &mut Random, question: &mut Vec<u16>) {
    let place = random.below(question.len() as u32) as usize;
    let number = *random.pick(&[AND, OR, NOT, OPEN, CLOSE, CLOSE + 1, AND - 1, 4_095, 4_096, u16::MAX, 0]);
    match random.below(4) {
        0 => question[place] = number,
        1 => question.insert(place, number),
        2 => question.truncate(place),
        _ => {
            question.remove(place);
        }
    }
}

/// Slices to lend where so much is needed: mostly enough and some more, at times one too few or none.
pub fn lent(random: &mut Random, needed: Lent) -> Lent {
    let mut some = |needed: usize| match random.below(12) {
        0 => needed.saturating_sub(1),
        1 => 0,
        2 => needed,
        _ => needed + random.below(7) as usize,
    };
    Lent { first: some(needed.first), second: some(needed.second) }
}
