//! Which argument a refusal 11 is about, in the words of `docs/FORMAT.md`.
use std::fmt;

/// Which argument is outside its range. Where several are, the first that is looked at.
///
/// ```
/// use masuvelior::{write, Archive, Argument, Refusal};
///
/// let bytes = write(&[3, 1, 0, 3, 2, 1, 3, 0], &[3, 0, 5], 4)?;
/// let refusal = Archive::open(&bytes)?.rank(4, 8).unwrap_err();
/// assert_eq!(refusal, Refusal::Argument(Argument::Document));
/// assert_eq!(refusal.to_string(), "an argument is outside its range: the document is N or more");
/// # Ok::<(), Refusal>(())
/// ```
#[derive(Clone, Copy, Debug, PartialEq, Eq, PartialOrd, Ord, Hash)]
#[non_exhaustive]
pub enum Argument {
    /// It is not known which: a number alone does not say.
    Unnamed,
    /// The place of an entry is n or more.
    Place,
    /// The place before which entries are counted is above n.
    Before,
    /// The document, or one of a set, is N or more.
    Document,
    /// j, the number of an occurrence, is 0.
    Occurrence,
    /// Entries a to b: a is above b.
    CrossedEntries,
    /// Entries a to b: b is above n.
    End,
    /// Terms f to l: f is above l.
    CrossedTerms,
    /// Terms f to l: l is W or more.
    LastTerm,
    /// One of the terms of a conjunction, of an order, of a weighted search or of a question with and, or, not is W or more.
    Term,
    /// The rank is not below the range's size.
    Rank,
    /// The size of a rate is 0.
    Size,
    /// The count of a rate is above the size.
    Count,
}

impl Argument {
    /// Every argument that has a name.
    pub const ALL: [Argument; 12] = [
        Argument::Place,
        Argument::Before,
        Argument::Document,
        Argument::Occurrence,
        Argument::CrossedEntries,
        Argument::End,
        Argument::CrossedTerms,
        Argument::LastTerm,
        Argument::Term,
        Argument::Rank,
        Argument::Size,
        Argument::Count,
    ];

    /// What is wrong about it.
    pub fn sentence(self) -> &'static str {
        match self {
            Argument::Unnamed => "an argument is outside its range",
            Argument::Place => "the place is n or more",
            Argument::Before => "p is above n",
            Argument::Document => "the document is N or more",
            Argument::Occurrence => "j is 0",
            Argument::CrossedEntries => "a is above b",
            Argument::End => "b is above n",
            Argument::CrossedTerms => "f is above l",
            Argument::LastTerm => "l is W or more",
            Argument::Term => "one of the terms is W or more",
            Argument::Rank => "the rank is not below the range's size",
            Argument::Size => "the size is 0",
            Argument::Count => "the count is above the size",
        }
    }
}

impl fmt::Display for Argument {
    fn fmt(&self, f: &mut fmt::Formatter<'_>) -> fmt::Result {
        f.write_str(self.sentence())
    }
}
