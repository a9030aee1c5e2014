//! What `docs/FORMAT.md` prints: the refusals' sentences, and the answers for its libraries.
use masuvelior::marks::{AND, CLOSE, NOT, OPEN, OR};
use masuvelior::Over::{Entries, Terms};
use masuvelior::{per_mille, write, Archive, Argument, Ended, Refusal};

const FORMAT: &str = include_str!("../../../../docs/FORMAT.md");

/// The page with each run of spaces and line feeds as one space.
fn words() -> String {
    FORMAT.split_whitespace().collect::<Vec<_>>().join(" ")
}

#[test]
fn sentences_are_those_in_print() {
    for (number, refusal) in (1..).zip(Refusal::ALL) {
        assert_eq!(refusal.number(), number);
        assert_eq!(Refusal::from_number(number), Some(refusal));
        let line = format!("| {number} | {refusal} |");
        assert!(FORMAT.contains(&line), "docs/FORMAT.md has no: {line}");
    }
    assert_eq!(Refusal::from_number(0), None);
    assert_eq!(Refusal::from_number(20), None);
    for argument in Argument::ALL {
        assert!(words().contains(argument.sentence()), "docs/FORMAT.md has no: {argument}");
    }
}

/// The bytes of a dump of the page.
fn dump(name: &str) -> Vec<u8> {
    let first = format!("{name}: ");
    let lines = FORMAT.lines().skip_while(|line| !line.starts_with(&first)).skip(1);
    let bytes = lines.take_while(|line| !line.is_empty() && !line.starts_with("```"));
    let digits = bytes.flat_map(|line| line.split_whitespace().skip(1)).filter(|word| word.len() == 2);
    digits.map(|byte| u8::from_str_radix(byte, 16).unwrap()).collect()
}

#[test]
fn dumps_are_what_is_written() -> Result<(), Refusal> {
    let many: Vec<u32> = (0..600).map(|i| (5 * i + i / 9) % 7).collect();
    let each: Vec<u32> = (0..300).collect();
    let libraries: [(_, &[u32], &[u32], _); 8] = [
        ("S", &[3, 1, 0, 3, 2, 1, 3, 0], &[3, 0, 5], 4),
        ("T", &many, &[200, 400], 7),
        ("L", &[4, 0, 2, 4, 1], &[3, 2], 5),
        ("D", &[2, 5], &[2], 8),
        ("U", &[0; 3], &[3], 1),
        ("E", &[], &[0, 0], 5),
        ("H", &[1; 1025], &[1025], 2),
        ("M", &each, &[300], 300),
    ];
    for (name, entries, lengths, documents) in libraries {
        assert_eq!(write(entries, lengths, documents)?, dump(name), "the dump {name}");
    }
    Ok(())
}

#[test]
fn the_small_library() -> Result<(), Refusal> {
    let bytes = write(&[3, 1, 0, 3, 2, 1, 3, 0], &[3, 0, 5], 4)?;
    assert_eq!(bytes.len(), 74);
    assert_eq!(bytes[72..], [0x59, 0xB5]);
    let archive = Archive::open(&bytes)?;
    assert_eq!(archive.access(4)?, 2);
    assert_eq!((archive.rank(3, 8)?, archive.rank(3, 3)?), (3, 1));
    assert_eq!((archive.select(0, 2)?, archive.select(0, 3)?), (7, 8));
    assert_eq!(archive.quantile(Entries(0..8), 4)?, 2);
    assert_eq!(archive.quantile(Terms(0..=2), 7)?, 3);
    assert_eq!(archive.list(Entries(3..8))?, [(0, 1, 7), (1, 1, 5), (2, 1, 4), (3, 2, 3)]);
    assert_eq!(archive.conjunction(&[0, 2])?, [(0, 2), (1, 2), (3, 3)]);
    assert_eq!(archive.conjunction(&[0, 0])?, [(0, 1), (1, 1), (3, 1)]);
    assert!(archive.conjunction(&[0, 1])?.is_empty());
    assert_eq!(per_mille(3, 16)?, 188);
    Ok(())
}

#[test]
fn top_k_of_the_small_library() -> Result<(), Refusal> {
    let bytes = write(&[3, 1, 0, 3, 2, 1, 3, 0], &[3, 0, 5], 4)?;
    let archive = Archive::open(&bytes)?;
    let (done, spent) = (|openings| Ended::Done { openings }, |allowance| Ended::Spent { allowance });
    let cases: [(_, _, _, &[_], _); 7] = [
        (0..8, 2, 9, &[(3, 3, 0), (0, 2, 2)], done(3)),
        (0..8, 1, 2, &[], spent(2)),
        (1..4, 3, 2, &[(0, 1, 2), (1, 1, 1)], spent(2)),
        (1..4, 3, 3, &[(0, 1, 2), (1, 1, 1), (3, 1, 3)], done(3)),
        (3..5, 1, 2, &[(2, 1, 4)], done(2)),
        (3..8, 2, 9, &[(3, 2, 3), (0, 1, 7)], done(3)),
        (4..4, 5, 0, &[], done(0)),
    ];
    for (range, k, allowance, documents, ended) in cases {
        let got = archive.greedy(Entries(range.clone()), k, allowance)?;
        assert_eq!(got.0, documents, "{range:?}, k {k}, allowance {allowance}");
        assert_eq!(got.1, ended, "{range:?}, k {k}, allowance {allowance}");
    }
    assert_eq!(archive.probing(Entries(1..4), 3)?, [(0, 1, 2), (1, 1, 1), (3, 1, 3)]);
    Ok(())
}

/// Terms 0 and 2 weigh 1 and 0.
#[test]
fn weighted_of_the_small_library() -> Result<(), Refusal> {
    let bytes = write(&[3, 1, 0, 3, 2, 1, 3, 0], &[3, 0, 5], 4)?;
    let archive = Archive::open(&bytes)?;
    let (done, spent) = (|openings| Ended::Done { openings }, |allowance| Ended::Spent { allowance });
    let cases: [(&[u32], _, _, &[_], _); 6] = [
        (&[0, 2], 4, 3, &[(0, 1), (1, 1), (3, 1), (2, 0)], done(3)),
        (&[0, 2], 4, 2, &[(0, 1), (1, 1)], spent(2)),
        (&[0, 2], 1, 1, &[], spent(1)),
        (&[2], 4, 3, &[(0, 0), (1, 0), (2, 0), (3, 0)], done(3)),
        (&[1], 2, 0, &[], done(0)),
        (&[0, 0], 2, 2, &[(0, 1), (1, 1)], done(2)),
    ];
    for (terms, k, allowance, documents, ended) in cases {
        let got = archive.weighted(terms, k, allowance)?;
        assert_eq!(got.0, documents, "{terms:?}, k {k}, allowance {allowance}");
        assert_eq!(got.1, ended, "{terms:?}, k {k}, allowance {allowance}");
    }
    Ok(())
}

/// Terms 0, 1 and 2 have three entries, none and five.
#[test]
fn order_of_the_small_library() -> Result<(), Refusal> {
    let bytes = write(&[3, 1, 0, 3, 2, 1, 3, 0], &[3, 0, 5], 4)?;
    let archive = Archive::open(&bytes)?;
    let cases: [(&[u32], &[u32]); 3] = [(&[2, 0], &[0, 2]), (&[2, 1, 0], &[1, 0, 2]), (&[0, 0, 2], &[0, 2])];
    for (terms, order) in cases {
        assert_eq!(archive.rarest_first(terms)?, order, "{terms:?}");
    }
    for refused in [&[][..], &[0; 9], &[3; 9]] {
        assert_eq!(archive.rarest_first(refused), Err(Refusal::TermCount), "{refused:?}");
    }
    assert_eq!(archive.rarest_first(&[0, 3]), Err(Refusal::Argument(Argument::Term)));
    Ok(())
}

/// Term 0 has the documents 0, 1 and 3, term 1 none, term 2 all.
#[test]
fn boolean_of_the_small_library() -> Result<(), Refusal> {
    let bytes = write(&[3, 1, 0, 3, 2, 1, 3, 0], &[3, 0, 5], 4)?;
    let archive = Archive::open(&bytes)?;
    let cases: [(&[u16], &[u32]); 6] = [
        (&[2, AND, NOT, 0], &[2]),
        (&[2, AND, NOT, 0, OR, 1], &[2]),
        (&[NOT, 1], &[0, 1, 2, 3]),
        (&[0, OR, 2, AND, 1], &[0, 1, 3]),
        (&[OPEN, 0, OR, 2, CLOSE, AND, 1], &[]),
        (&[NOT, NOT, 0], &[0, 1, 3]),
    ];
    for (question, documents) in cases {
        assert_eq!(archive.boolean(question)?, documents, "{question:?}");
    }
    let nine_deep = [[OPEN; 9].as_slice(), &[0], &[CLOSE; 9]].concat();
    let sixty_five = [[NOT; 64].as_slice(), &[0]].concat();
    let unread: [&[u16]; 8] =
        [&[], &[0, 0], &[0, AND], &[OPEN, CLOSE], &[4_096], &[AND, 3], nine_deep.as_slice(), sixty_five.as_slice()];
    for question in unread {
        assert_eq!(archive.boolean(question), Err(Refusal::Question), "{question:?}");
    }
    assert_eq!(archive.boolean(&[3]), Err(Refusal::Argument(Argument::Term)));
    Ok(())
}

#[test]
fn sets_of_the_small_library() -> Result<(), Refusal> {
    let bytes = write(&[3, 1, 0, 3, 2, 1, 3, 0], &[3, 0, 5], 4)?;
    let archive = Archive::open(&bytes)?;
    assert_eq!((archive.rank_set(&[0, 3], 8)?, archive.rank_set(&[0, 3], 3)?), (5, 2));
    assert_eq!((archive.rank_set(&[], 8)?, archive.rank_set(&[0, 1, 2, 3], 5)?), (0, 5));
    let refused: [&[u32]; 3] = [&[3, 0], &[1, 1], &[2, 1, 7]];
    for set in refused {
        assert_eq!(archive.rank_set(set, 8), Err(Refusal::Set), "{set:?}");
    }
    assert_eq!(archive.rank_set(&[4], 8), Err(Refusal::Argument(Argument::Document)));
    assert_eq!(archive.rank_set(&[], 9), Err(Refusal::Argument(Argument::Before)));
    Ok(())
}

#[test]
fn one_document_has_no_rows() -> Result<(), Refusal> {
    let bytes = write(&[0; 3], &[3], 1)?;
    let (documents, ended) = Archive::open(&bytes)?.greedy(Entries(0..3), 1, 0)?;
    assert_eq!(documents, [(0, 3, 0)]);
    assert_eq!(ended, Ended::Done { openings: 0 });
    Ok(())
}

#[test]
fn another_length_is_refused() -> Result<(), Refusal> {
    let mut bytes = write(&[3, 1, 0, 3, 2, 1, 3, 0], &[3, 0, 5], 4)?;
    assert_eq!(Archive::open(&bytes[..73]).err(), Some(Refusal::Length));
    bytes.push(0);
    assert_eq!(Archive::open(&bytes).err(), Some(Refusal::Length));
    Ok(())
}

/// The rows are a wavelet tree's and no matrix's, which would have 02 01 01.
#[test]
fn rows_of_a_tree() -> Result<(), Refusal> {
    let bytes = write(&[2, 5], &[2], 8)?;
    assert_eq!(bytes[bytes.len() - 3..], [0x02, 0x01, 0x02]);
    Ok(())
}

#[test]
fn three_rows_and_two_samples_a_row() -> Result<(), Refusal> {
    let entries: Vec<u32> = (0..600).map(|i| (5 * i + i / 9) % 7).collect();
    let bytes = write(&entries, &[200, 400], 7)?;
    assert_eq!(bytes.len(), 305);
    for (sample, at) in [(219, 60), (227, 68), (256, 76)] {
        assert_eq!(bytes[at..at + 4], u32::to_le_bytes(sample));
    }
    let archive = Archive::open(&bytes)?;
    assert_eq!(archive.access(123)?, 5);
    assert_eq!(archive.rank(3, 123)?, 17);
    assert_eq!(archive.select(6, 10)?, 67);
    assert_eq!(archive.quantile(Entries(0..600), 300)?, 3);
    Ok(())
}

/// Terms that were iterated to their end are none, and so refused.
#[test]
fn exhausted_terms() -> Result<(), Refusal> {
    let bytes = write(&[0, 0], &[1, 1], 1)?;
    let archive = Archive::open(&bytes)?;
    let mut terms = 0..=1;
    assert_eq!(archive.range_of_terms(terms.clone())?, 0..2);
    assert_eq!(terms.by_ref().count(), 2);
    assert_eq!(archive.range_of_terms(terms.clone()), Err(Refusal::Argument(Argument::CrossedTerms)));
    assert_eq!(archive.list(Terms(terms)), Err(Refusal::Argument(Argument::CrossedTerms)));
    Ok(())
}
