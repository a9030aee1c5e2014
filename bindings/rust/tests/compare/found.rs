//! What answers list for a document: its tuple, and its numbers in memory.
use masuvelior::{write, Archive, Counted, Matched, Over::Terms, Refusal, Scored};
use std::mem::{align_of, size_of};

#[test]
fn as_tuples() {
    let counted = Counted { document: 7, count: 8, place: 9 };
    assert_eq!((Counted::from((7, 8, 9)), <(u32, u32, u32)>::from(counted)), (counted, (7, 8, 9)));
    assert_eq!(counted, (7, 8, 9));
    assert!([(0, 8, 9), (7, 0, 9), (7, 8, 0), (7, 9, 8)].iter().all(|other| counted != *other));
    let matched = Matched { document: 7, count: 8 };
    assert_eq!((Matched::from((7, 8)), <(u32, u32)>::from(matched)), (matched, (7, 8)));
    assert!(matched == (7, 8) && matched != (8, 7) && matched != (7, 7) && matched != (8, 8));
    let scored = Scored { document: 7, score: 8 };
    assert_eq!((Scored::from((7, 8)), <(u32, u32)>::from(scored)), (scored, (7, 8)));
    assert!(scored == (7, 8) && scored != (8, 7) && scored != (7, 7) && scored != (8, 8));
}

#[test]
fn in_memory() {
    assert_eq!([size_of::<Counted>(), size_of::<Matched>(), size_of::<Scored>()], [12, 8, 8]);
    assert_eq!([align_of::<Counted>(), align_of::<Matched>(), align_of::<Scored>()], [4; 3]);
}

/// The fields by their names: a document is no count, and a count no place.
#[test]
fn by_their_names() -> Result<(), Refusal> {
    let bytes = write(&[3, 1, 0, 3, 2, 1, 3, 0], &[3, 0, 5], 4)?;
    let archive = Archive::open(&bytes)?;
    assert_eq!(archive.list(Terms(2..=2))?[3], Counted { document: 3, count: 2, place: 3 });
    assert_eq!(archive.probing(Terms(0..=2), 2)?[1], Counted { document: 0, count: 2, place: 2 });
    assert_eq!(archive.greedy(Terms(0..=2), 4, 9)?.0[2], Counted { document: 1, count: 2, place: 1 });
    assert_eq!(archive.conjunction(&[0, 2])?[2], Matched { document: 3, count: 3 });
    assert_eq!(archive.weighted(&[0, 2], 4, 3)?.0[3], Scored { document: 2, score: 0 });
    Ok(())
}
