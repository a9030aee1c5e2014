//! Why an operation refused: the numbers and sentences of document 01's table, as `docs/FORMAT.md` prints them.
use crate::argument::Argument;
use std::error::Error;
use std::fmt;

/// A refusal: the lowest number of the table that applies, but 18 comes before 11 and 12, and 19 before 11. Nothing was written.
///
/// ```
/// use masuvelior::{Archive, Refusal};
///
/// let refusal = Archive::open(b"no archive").unwrap_err();
/// assert_eq!(refusal, Refusal::TooShort);
/// assert_eq!(refusal.number(), 1);
/// assert_eq!(refusal.to_string(), "fewer than 40 bytes");
/// ```
#[derive(Clone, Copy, Debug, PartialEq, Eq, PartialOrd, Ord, Hash)]
#[non_exhaustive]
pub enum Refusal {
    /// 1, opening: fewer than 40 bytes.
    TooShort,
    /// 2, opening: the edition is not 1.
    Edition,
    /// 3, opening: n, N or W is outside its limits.
    Limits,
    /// 4, opening: one of the header's three pairs differs from the layout.
    Pairs,
    /// 5, opening: the length differs from the layout.
    Length,
    /// 6, opening: the term table differs.
    TermTable,
    /// 7, opening: a sample is wrong.
    Sample,
    /// 8, opening: an unused bit of a row is 1.
    UnusedBit,
    /// 9, opening: an entry is N or more.
    Entry,
    /// 10, a question: no terms, or more than eight.
    TermCount,
    /// 11, a question: an argument is outside its range, and which.
    Argument(Argument),
    /// 12, a lent slice: the one for answers, or one of the reader's two, is too short.
    AnswerSlice,
    /// 13, a lent slice: the one for work is too short.
    WorkSlice,
    /// 14, the writer: n, N or W is outside its limits.
    WriterLimits,
    /// 15, the writer: an entry is N or more.
    WriterEntry,
    /// 16, the writer: the term lengths do not add up to n.
    WriterLengths,
    /// 17, the writer: the target is shorter than the archive.
    WriterTarget,
    /// 18, a question with and, or, not: it is empty, too long, too deep or without a reading.
    Question,
    /// 19, a set of documents: it is too long or not strictly ascending.
    Set,
}

impl Refusal {
    /// Every refusal, by number; the argument of 11 has no name there.
    pub const ALL: [Refusal; 19] = [
        Refusal::TooShort,
        Refusal::Edition,
        Refusal::Limits,
        Refusal::Pairs,
        Refusal::Length,
        Refusal::TermTable,
        Refusal::Sample,
        Refusal::UnusedBit,
        Refusal::Entry,
        Refusal::TermCount,
        Refusal::Argument(Argument::Unnamed),
        Refusal::AnswerSlice,
        Refusal::WorkSlice,
        Refusal::WriterLimits,
        Refusal::WriterEntry,
        Refusal::WriterLengths,
        Refusal::WriterTarget,
        Refusal::Question,
        Refusal::Set,
    ];

    /// Its number in the table, 1 to 19.
    pub fn number(self) -> u32 {
        self.row().0
    }

    /// The refusal of a number, if the table has it.
    pub fn from_number(number: u32) -> Option<Refusal> {
        let index = number.checked_sub(1)?;
        Refusal::ALL.get(index as usize).copied()
    }

    /// Its sentence in the table. What a refusal prints has the wrong argument behind it, where there is one.
    pub fn sentence(self) -> &'static str {
        self.row().1
    }

    /// Its row of the table.
    fn row(self) -> (u32, &'static str) {
        match self {
            Refusal::TooShort => (1, "fewer than 40 bytes"),
            Refusal::Edition => (2, "the edition is not 1"),
            Refusal::Limits => (3, "n, N or W is outside its limits"),
            Refusal::Pairs => (4, "one of the three pairs at 16, 24, 32 differs from what n, N and W give"),
            Refusal::Length => (5, "the archive's length differs from where the rows end"),
            Refusal::TermTable => (6, "the term table differs"),
            Refusal::Sample => (7, "a sample is wrong"),
            Refusal::UnusedBit => (8, "an unused bit of a row is 1"),
            Refusal::Entry => (9, "an entry is N or more"),
            Refusal::TermCount => (10, "no terms, or more than eight"),
            Refusal::Argument(_) => (11, "an argument is outside its range"),
            Refusal::AnswerSlice => (12, "the answer slice, or one of read's two slices, is too short"),
            Refusal::WorkSlice => (13, "the work slice is too short"),
            Refusal::WriterLimits => (14, "n, N or W is outside its limits"),
            Refusal::WriterEntry => (15, "an entry is N or more"),
            Refusal::WriterLengths => (16, "the term lengths do not add up to n"),
            Refusal::WriterTarget => (17, "the target is shorter than the archive"),
            Refusal::Question => (18, "a question that is empty, too long, too deep or without a reading"),
            Refusal::Set => (19, "a set that is too long or not strictly ascending"),
        }
    }

    /// The same, with a name for the argument where it is one that is refused.
    pub(crate) fn about(self, argument: impl FnOnce() -> Argument) -> Refusal {
        match self {
            Refusal::Argument(_) => Refusal::Argument(argument()),
            other => other,
        }
    }
}

impl fmt::Display for Refusal {
    fn fmt(&self, f: &mut fmt::Formatter<'_>) -> fmt::Result {
        f.write_str(self.sentence())?;
        match self {
            Refusal::Argument(Argument::Unnamed) => Ok(()),
            Refusal::Argument(argument) => write!(f, ": {argument}"),
            _ => Ok(()),
        }
    }
}

impl Error for Refusal {}

/// What a function of the header answered: `value` where it is 0, else the refusal.
pub(crate) fn outcome<T>(answer: u32, value: T) -> Result<T, Refusal> {
    if answer == 0 {
        return Ok(value);
    }
    match Refusal::from_number(answer) {
        Some(refusal) => Err(refusal),
        None => unreachable!("the header has no refusal {answer}"),
    }
}
