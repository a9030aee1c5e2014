//! Questions with and, or, not where their readings, refusals, slices and libraries are special.
use crate::ask::Scratch;
use crate::compare::{assert_met, compare, compare_in, compare_raw, needed, Met};
use crate::faults::compare_with_faults;
use crate::library::{archive, Library};
use crate::questions::{answer, Lent, Question};
use crate::random::{self, Random};
use crate::raw::FORMS;
use crate::scores::{library, small};
use crate::sweep::with_archive;
use crate::{quick, rounds};
use masuvelior::marks::{AND, CLOSE, NOT, OPEN, OR};
use masuvelior::Archive;

/// Puts a question in every way, in slices that are just long enough.
fn ask(archive: &Archive, library: &Library, question: &[u16], met: &mut Met) {
    let question = Question::Boolean { question: question.to_vec() };
    compare(archive, library, &question, needed(library, &question), met);
}

/// A question, and its documents or its refusal.
type Case<'a> = (&'a [u16], Result<&'a [u32], u32>);

/// The model says this of each question, and so does every way to ask.
fn hold(archive: &Archive, library: &Library, cases: &[Case]) {
    for (question, right) in cases {
        let asked = Question::Boolean { question: question.to_vec() };
        let model = answer(library, &asked, needed(library, &asked)).map(|answer| answer.first);
        assert_eq!(model, right.map(<[u32]>::to_vec), "{question:?}");
        ask(archive, library, question, &mut Met::new());
    }
}

/// So many brackets around what is given.
fn in_brackets(depth: usize, inside: &[u16]) -> Vec<u16> {
    [vec![OPEN; depth].as_slice(), inside, vec![CLOSE; depth].as_slice()].concat()
}

/// The cases of the change request, and others by hand.
#[test]
fn cases_that_tell_readings_apart() {
    let library = small();
    with_archive(&mut Random::new(71), &library, |_, archive| {
        hold(
            archive,
            &library,
            &[
                (&[2, AND, NOT, 0], Ok(&[2])),
                (&[2, AND, NOT, 0, OR, 1], Ok(&[2])),
                (&[NOT, 1], Ok(&[0, 1, 2, 3])),
                (&[0, OR, 2, AND, 1], Ok(&[0, 1, 3])),
                (&[OPEN, 0, OR, 2, CLOSE, AND, 1], Ok(&[])),
                (&[NOT, NOT, 0], Ok(&[0, 1, 3])),
                (&[NOT, 0, AND, 1], Ok(&[])),          // not (0 and 1) would be all
                (&[NOT, 0, OR, 0], Ok(&[0, 1, 2, 3])), // not (0 or 0) would be 2
                (&[NOT, OPEN, 0, AND, 2, CLOSE], Ok(&[2])),
                (&[2, OR, 0, AND, 1], Ok(&[0, 1, 2, 3])), // (2 or 0) and 1 would be none
                (&[1, AND, 0, OR, 2], Ok(&[0, 1, 2, 3])), // 1 and (0 or 2) would be none
                (&[0, AND, OPEN, 2, AND, 0, CLOSE], Ok(&[0, 1, 3])),
                (&[3], Err(11)),
                (&[4_095], Err(11)),
                (&[0, OR, 3], Err(11)),
                (&[], Err(18)),
                (&[0, 0], Err(18)),
                (&[0, AND], Err(18)),
                (&[OPEN, CLOSE], Err(18)),
                (&[4_096], Err(18)),
                (&[59_999], Err(18)),
                (&[60_005], Err(18)),
                (&[u16::MAX], Err(18)),
                (&[AND, 3], Err(18)),
                (&[3, 3], Err(18)),
                (&in_brackets(9, &[0]), Err(18)),
                (&[vec![NOT; 64], vec![0]].concat(), Err(18)),
            ],
        );
    });
}

/// Every number alone: a term, one that the archive lacks, or none that is read.
#[test]
fn every_number_alone() {
    let mut met = Met::new();
    let library = small();
    with_archive(&mut Random::new(72), &library, |_, archive| {
        for number in (0..=u16::MAX).step_by(if quick() { 251 } else { 1 }) {
            ask(archive, &library, &[number], &mut met);
        }
    });
    assert!(quick() || met == Met::from([0, 11, 18]));
}

/// All questions of so many of these numbers.
fn every_question_of(numbers: &[u16], size: u32) -> impl Iterator<Item = Vec<u16>> + '_ {
    let number = |i: usize, place: u32| numbers[i / numbers.len().pow(place) % numbers.len()];
    (0..numbers.len().pow(size)).map(move |i| (0..size).map(|place| number(i, place)).collect())
}

/// All short questions: of each kind of number, and longer ones of marks and one term.
#[test]
fn every_short_question() {
    let mut met = Met::new();
    let library = small();
    with_archive(&mut Random::new(73), &library, |_, archive| {
        let kinds = [0, 2, 3, 4_096, AND, OR, NOT, OPEN, CLOSE];
        let marks = [0, AND, OR, NOT, OPEN, CLOSE];
        let all = (0..=4).flat_map(|size| every_question_of(&kinds, size)).chain(every_question_of(&marks, 6));
        for question in all.step_by(if quick() { 97 } else { 1 }) {
            ask(archive, &library, &question, &mut met);
        }
    });
    assert_eq!(met, Met::from([0, 11, 18]));
}

/// Questions with so many brackets open at once, for which 'not' and brackets beside each other do not count.
fn of_depth(depth: usize) -> [Vec<u16>; 4] {
    let nested = |inside: &[u16]| in_brackets(depth, inside);
    [
        nested(&[0]),
        [vec![NOT; 20], nested(&[NOT, NOT, 0])].concat(),
        [[OPEN, NOT].repeat(depth), vec![2, AND, 0], vec![CLOSE; depth]].concat(),
        [nested(&[0]), vec![OR], nested(&[1]), vec![AND], nested(&[2])].concat(),
    ]
}

#[test]
fn eight_deep_and_no_deeper() {
    let library = small();
    with_archive(&mut Random::new(74), &library, |_, archive| {
        for depth in 0..=12 {
            let mut met = Met::new();
            for question in of_depth(depth) {
                ask(archive, &library, &question, &mut met);
            }
            assert_eq!(met, Met::from([if depth <= 8 { 0 } else { 18 }]), "{depth} deep");
        }
    });
}

/// Questions of so many numbers, at most three deep.
fn of_length(length: usize) -> [Vec<u16>; 5] {
    let chain = |mark: u16| [vec![NOT; (length + 1) % 2], vec![0], [mark, 2].repeat((length - 1) / 2)].concat();
    let brackets = [vec![NOT; (length - 1) % 4], vec![1], [OR, OPEN, 0, CLOSE].repeat((length - 1) / 4)].concat();
    let depth = ((length - 1) / 2).min(3);
    let nested = in_brackets(depth, &[vec![NOT; length - 1 - 2 * depth], vec![0]].concat());
    [chain(AND), chain(OR), brackets, nested, [vec![NOT; length - 1], vec![2]].concat()]
}

#[test]
fn sixty_four_and_no_longer() {
    let library = small();
    with_archive(&mut Random::new(75), &library, |_, archive| {
        for length in 1..=140 {
            let mut met = Met::new();
            for question in of_length(length) {
                assert_eq!(question.len(), length);
                ask(archive, &library, &question, &mut met);
            }
            assert_eq!(met, Met::from([if length <= 64 { 0 } else { 18 }]), "{length} numbers");
        }
    });
}

/// Lengths that 16 bits do not hold.
#[test]
fn longer_by_far() {
    let bytes = archive(&small());
    for times in [32_767, 32_768, 32_799, 1 << 20] {
        let question = Question::Boolean { question: [vec![0], [OR, 0].repeat(times)].concat() };
        for form in FORMS {
            compare_raw(&bytes, form, &question, Lent { first: 4, second: 0 }, &Err(18));
        }
    }
}

/// Every refusal, alone and with each set of others: faults of the archive, of the reading, of a term and of the slice.
#[test]
fn every_refusal_and_every_order() {
    let deep = in_brackets(9, &[3]);
    let questions: [&[u16]; 12] = [
        &[2, AND, NOT, 0],
        &[NOT, 1],
        &[3],
        &[0, OR, 4_095],
        &[],
        &[3, AND],
        &[AND, 3],
        &[3, 3],
        &[4_096, OR, 3],
        &deep,
        &[3; 65],
        &[60_005],
    ];
    let mut met = Met::new();
    for question in questions {
        let question = Question::Boolean { question: question.to_vec() };
        for first in [0, 1, 3, 4, 5, 8] {
            compare_with_faults(&question, Lent { first, second: 0 }, &mut met);
        }
    }
    assert_eq!(met, Met::from([0, 1, 2, 3, 4, 5, 6, 7, 8, 9, 11, 12, 18]));
}

/// Slices that are short by one number, just long enough and longer, full of zeros, ones, documents or any numbers: the rest stays as it was.
#[test]
fn slices_of_every_length() {
    let mut random = Random::new(76);
    let mut met = Met::new();
    for documents in [1, 2, 5, 63, 64, 65, 130] {
        let library = random::library(&mut random, 3 * documents, documents, 3);
        let bytes = archive(&library);
        let questions: [&[u16]; 5] = [&[0], &[NOT, 0], &[0, AND, NOT, 0], &[1, OR, NOT, 2], &[NOT, 0, OR, 0]];
        for question in questions {
            let question = Question::Boolean { question: question.to_vec() };
            for first in (documents as usize).saturating_sub(3)..documents as usize + 4 {
                let right = answer(&library, &question, Lent { first, second: 0 });
                met.insert(right.as_ref().err().copied().unwrap_or(0));
                let any: Vec<u32> = (0..first).map(|_| random.next()).collect();
                let full = [0, 1, documents, 0x7FFF_FFFF, u32::MAX].map(|number| vec![number; first]);
                for (first, form) in
                    full.into_iter().chain([any]).flat_map(|first| FORMS.map(|form| (first.clone(), form)))
                {
                    compare_in(&bytes, form, &question, Scratch { first, second: vec![] }, &right);
                }
            }
        }
    }
    assert_eq!(met, Met::from([0, 12]));
}

/// N beside the sizes of blocks and at its limits, with terms that have none, one, a few and all documents.
#[test]
fn libraries_of_every_size() {
    let mut random = Random::new(77);
    let mut met = Met::new();
    let sizes = [1, 2, 3, 4, 7, 8, 31, 32, 33, 63, 64, 65, 127, 128, 129, 192, 1_000, 2_048, 2_049, 4_095, 4_096];
    for documents in sizes {
        let all: Vec<u32> = (0..documents).collect();
        let some: Vec<u32> = (0..documents).filter(|_| random.one_in(3)).collect();
        let sparse: Vec<u32> = (0..documents / 40).map(|_| random.below(documents)).collect();
        let half: Vec<u32> = (documents / 2..documents).rev().collect();
        let library = library(documents, &[&all, &[], &[0], &[documents - 1, documents - 1], &some, &sparse, &half]);
        with_archive(&mut random, &library, |random, archive| {
            for x in 0..7 {
                ask(archive, &library, &[NOT, x], &mut met);
                for y in 0..7 {
                    ask(archive, &library, &[x, AND, NOT, y], &mut met);
                    ask(archive, &library, &[x, OR, y], &mut met);
                }
            }
            for _ in 0..rounds(20) {
                let question = random::boolean(random, 7);
                compare(archive, &library, &question, needed(&library, &question), &mut met);
            }
        });
    }
    assert_met(&met, 0..=0);
}

/// 32 different terms, which is as many as there is room for, and the same ones again; terms up to the last of 4,096.
#[test]
fn as_many_terms_as_may_be() {
    let mut random = Random::new(78);
    let mut met = Met::new();
    for (documents, terms) in [(100, 40), (64, 4_096), (4_096, 4_096), (1, 4_096)] {
        let library = random::library(&mut random, 20_000, documents, terms);
        with_archive(&mut random, &library, |random, archive| {
            for _ in 0..rounds(40) {
                let from = random.below(terms - 32);
                let different = [31, 30, 16, 1][random.below(4) as usize];
                let mut question = vec![];
                for i in 0..32 {
                    let term = if i == 31 { terms - 1 } else { from + i % different };
                    question.extend([term as u16, *random.pick(&[OR, OR, OR, AND])]);
                }
                question.pop();
                if random.one_in(2) {
                    question.insert(2 * random.below(32) as usize, NOT);
                }
                ask(archive, &library, &question, &mut met);
            }
        });
    }
    assert_eq!(met, Met::from([0]));
}

/// Random questions of random libraries, in random slices.
#[test]
fn random_questions() {
    let mut random = Random::new(79);
    let mut met = Met::new();
    for _ in 0..rounds(1_000) {
        let (n, documents) = (random.of_bits(9), 1 + random.of_bits(8));
        let terms = 1 + random.below(12);
        let library = random::library(&mut random, n, documents, terms);
        with_archive(&mut random, &library, |random, archive| {
            for _ in 0..12 {
                let question = random::boolean(random, terms);
                let slices = random::lent(random, needed(&library, &question));
                compare(archive, &library, &question, slices, &mut met);
            }
        });
    }
    assert!(quick() || met == Met::from([0, 11, 12, 18]));
}
