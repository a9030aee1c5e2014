//! One question, or one slice of bytes, put in every way and held against the model.
use crate::ask::{lent, whole, Scratch};
use crate::library::{open, Library};
use crate::questions::{answer, Answer, Lent, Question, ROOM};
use crate::quick;
use crate::random::{self, Random};
use crate::raw::{ask, Form, FORMS, UNWRITTEN};
use masuvelior::{Archive, Refusal};
use std::collections::BTreeSet;
use std::ops::RangeInclusive;

/// The refusals that the model gave; 0 stands for an answer. A test looks whether it met those that it is for.
pub type Met = BTreeSet<u32>;

/// How many numbers an answer has for each document.
fn numbers_each(question: &Question) -> usize {
    match question {
        Question::List { .. } | Question::Greedy { .. } | Question::Probing { .. } => 3,
        Question::Conjunction { .. } | Question::Weighted { .. } => 2,
        _ => 1,
    }
}

/// How many numbers a question needs in the two lent slices.
pub fn needed(library: &Library, question: &Question) -> Lent {
    let documents = library.documents as usize;
    let (first, second) = match question {
        Question::Read => (library.entries.len(), library.lengths.len()),
        Question::List { .. } | Question::Conjunction { .. } | Question::Boolean { .. } => {
            (numbers_each(question) * documents, 0)
        }
        Question::RarestFirst { .. } => (8, 0),
        Question::Greedy { k, .. } | Question::Probing { k, .. } | Question::Weighted { k, .. } => {
            (numbers_each(question) * documents.min(*k as usize), 4 * documents)
        }
        _ => (0, 0),
    };
    Lent { first, second }
}

/// Slices for a question, too short at times; but an order has room for eight numbers whatever is asked, and at times more behind them.
fn random_slices(random: &mut Random, library: &Library, question: &Question) -> Lent {
    let mut slices = random::lent(random, needed(library, question));
    if let Question::RarestFirst { .. } = question {
        slices.first = slices.first.max(8);
    }
    slices
}

/// Puts a question to an archive of this library in every way.
pub fn compare(archive: &Archive, library: &Library, question: &Question, slices: Lent, met: &mut Met) {
    compare_whole(archive, library, question);
    compare_lent(archive, library, question, slices);
    let right = answer(library, question, slices);
    for form in FORMS {
        compare_raw(archive.bytes(), form, question, slices, &right);
    }
    met.insert(right.err().unwrap_or(0));
}

fn compare_whole(archive: &Archive, library: &Library, question: &Question) {
    let right = as_given(question, answer(library, question, ROOM));
    assert_eq!(whole(archive, question), right, "{question:?} of {library:?}");
}

/// The answer as the crate gives it: the work slice is no part of it, nor are the zeros behind an order.
fn as_given(question: &Question, mut right: Result<Answer, u32>) -> Result<Answer, u32> {
    if let Ok(right) = &mut right {
        match question {
            Question::Read => {}
            Question::RarestFirst { .. } => right.first.truncate(right.numbers[0] as usize),
            _ => right.second.clear(),
        }
    }
    right
}

fn compare_lent(archive: &Archive, library: &Library, question: &Question, slices: Lent) {
    let mut scratch = Scratch::new(slices.first, slices.second);
    let each = numbers_each(question);
    scratch.first.truncate(slices.first / each * each); // whole documents are lent
    let size = Lent { first: scratch.first.len(), second: scratch.second.len() };
    let right = answer(library, question, size);
    let after = scratch.after(&right);
    let got = lent(archive, question, &mut scratch);
    let right = as_given(question, right);
    assert_eq!(got, right, "{question:?}, lent {slices:?}, of {library:?}");
    assert_eq!(scratch, after, "{question:?}, lent {slices:?}, of {library:?}");
}

/// Puts a question through its C name: the right number, and everything that it may write.
pub fn compare_raw(bytes: &[u8], form: Form, question: &Question, slices: Lent, right: &Result<Answer, u32>) {
    compare_in(bytes, form, question, Scratch::new(slices.first, slices.second), right);
}

/// The same in slices that hold what we like.
pub fn compare_in(bytes: &[u8], form: Form, question: &Question, mut scratch: Scratch, right: &Result<Answer, u32>) {
    let slices = (scratch.first.len(), scratch.second.len());
    let after = scratch.after(right);
    let mut out_after = UNWRITTEN;
    if let Ok(right) = right {
        out_after[..right.numbers.len()].copy_from_slice(&right.numbers);
    }
    let mut out = UNWRITTEN;
    let number = ask(bytes, form, question, &mut scratch, &mut out);
    let right_number = right.as_ref().err().copied().unwrap_or(0);
    assert_eq!(number, right_number, "{question:?}, {form:?}, lent {slices:?}, of {bytes:?}");
    assert_eq!(out, out_after, "{question:?}, {form:?}, lent {slices:?}, of {bytes:?}");
    assert_eq!(scratch, after, "{question:?}, {form:?}, lent {slices:?}, of {bytes:?}");
}

/// Puts so many random questions to the archive.
pub fn compare_random(random: &mut Random, archive: &Archive, library: &Library, questions: usize, met: &mut Met) {
    for _ in 0..questions {
        let question = random::question(random, library);
        let slices = random_slices(random, library, &question);
        compare(archive, library, &question, slices, met);
    }
}

/// Opens any bytes: the same refusal as the model's, of every checked question too, or the same library and so many questions of it.
pub fn compare_bytes(random: &mut Random, bytes: &[u8], questions: usize, met: &mut Met) {
    let right = open(bytes);
    met.insert(right.as_ref().err().copied().unwrap_or(0));
    match (&right, Archive::open(bytes)) {
        (Ok(library), Ok(archive)) => {
            let sizes = (archive.entries(), archive.documents(), archive.terms());
            let (n, terms) = (library.entries.len() as u32, library.lengths.len() as u32);
            assert_eq!(sizes, (n, library.documents, terms), "{bytes:?}");
            compare_random(random, &archive, library, questions, met);
        }
        (Err(right), Err(refusal)) => {
            assert_eq!(refusal.number(), *right, "{bytes:?}");
            refused(random, bytes, *right);
        }
        (right, got) => panic!("{right:?} and {got:?} of {bytes:?}"),
    }
}

/// A random question to bytes that are no archive.
fn refused(random: &mut Random, bytes: &[u8], right: u32) {
    let none = Library { entries: vec![0; 4], lengths: vec![4], documents: 4 };
    let question = random::question(random, &none);
    let slices = random_slices(random, &none, &question);
    compare_raw(bytes, Form::Checked, &question, slices, &Err(right));
}

/// That a test met all of these numbers. A short run need not.
pub fn assert_met(met: &Met, numbers: RangeInclusive<u32>) {
    if quick() {
        return;
    }
    for number in numbers {
        let sentence = Refusal::from_number(number).map_or("an answer", Refusal::sentence);
        assert!(met.contains(&number), "no case for {number}: {sentence}");
    }
}
