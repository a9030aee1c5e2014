//! The two forms of a range: entries a to b, and terms first to last.
use crate::archive::Archive;
use crate::argument::Argument;
use std::ops::{Range, RangeInclusive};

/// What a question is asked over. `Entries(a..b)` are the entries from place a up to but without place b; `Terms(first..=last)` are the
/// entries of these terms, both included.
///
/// A range that is crossed or reaches past the archive is refused as [`Refusal::Argument`](crate::Refusal::Argument), and so are terms
/// `first..=last` that were iterated to their end.
#[derive(Clone, Debug, PartialEq, Eq, Hash)]
pub enum Over {
    /// Entries a to b.
    Entries(Range<u32>),
    /// Terms first to last.
    Terms(RangeInclusive<u32>),
}

impl Over {
    /// Its two numbers, as the header takes them.
    pub(crate) fn ends(&self) -> (u32, u32) {
        match self {
            Over::Entries(entries) => (entries.start, entries.end),
            Over::Terms(terms) => term_ends(terms),
        }
    }

    /// What is wrong about it as a range of an archive, if anything is.
    pub(crate) fn fault(&self, archive: &Archive) -> Option<Argument> {
        let (from, to) = self.ends();
        match self {
            Over::Entries(_) if from > to => Some(Argument::CrossedEntries),
            Over::Entries(_) if to > archive.entries() => Some(Argument::End),
            Over::Terms(_) if from > to => Some(Argument::CrossedTerms),
            Over::Terms(_) if to >= archive.terms() => Some(Argument::LastTerm),
            _ => None,
        }
    }
}

/// The first and the last term. A range that was iterated to its end has neither: it becomes a crossed one, which is refused.
pub(crate) fn term_ends(terms: &RangeInclusive<u32>) -> (u32, u32) {
    let (first, last) = (*terms.start(), *terms.end());
    if terms.is_empty() && first <= last {
        return (1, 0);
    }
    (first, last)
}
