//! What answers list: a document with its count and first place, with its count alone, or with its score.
use std::mem::{align_of, size_of};

/// A document of a range, how many of the range's entries are its own, and where the first of them stands.
///
/// In memory it is the three numbers that an answer holds for a document, so a slice of these is a slice of numbers three times as long.
#[derive(Clone, Copy, Debug, Default, PartialEq, Eq, Hash)]
#[repr(C)]
pub struct Counted {
    /// The document's number.
    pub document: u32,
    /// Its count in the range.
    pub count: u32,
    /// The place of its first entry in the range, counted from entry 0 of the archive.
    pub place: u32,
}

/// A document with an entry under each of the terms of a conjunction, and the sum of its counts.
///
/// In memory it is two numbers.
#[derive(Clone, Copy, Debug, Default, PartialEq, Eq, Hash)]
#[repr(C)]
pub struct Matched {
    /// The document's number.
    pub document: u32,
    /// The sum, over the different terms, of its counts.
    pub count: u32,
}

/// A document and its score: the sum, over the different terms of a weighted search, of the term's weight times the document's count
/// under it.
///
/// In memory it is two numbers.
#[derive(Clone, Copy, Debug, Default, PartialEq, Eq, Hash)]
#[repr(C)]
pub struct Scored {
    /// The document's number.
    pub document: u32,
    /// Its score.
    pub score: u32,
}

/// What an answer slice holds for a document.
///
/// # Safety
/// In memory it is `NUMBERS` times `u32` without padding, and any numbers may be written there.
pub(crate) unsafe trait Found: Copy + Default {
    /// How many numbers it is.
    const NUMBERS: usize;
}

/// Puts `u32` for a field.
macro_rules! number {
    ($field:ident) => {
        u32
    };
}

/// A struct of C's layout with these fields, all `u32`, as so many numbers: in a slice, to and from a tuple, and beside one.
macro_rules! as_numbers {
    ($found:ident, $numbers:literal: $($field:ident),+) => {
        // SAFETY: it is of C's layout, and its fields are `u32`; below, that they are so many and have no padding.
        unsafe impl Found for $found {
            const NUMBERS: usize = $numbers;
        }

        const _: () = assert!(size_of::<$found>() == $numbers * size_of::<u32>());
        const _: () = assert!(align_of::<$found>() == align_of::<u32>());

        impl From<($(number!($field)),+)> for $found {
            fn from(($($field),+): ($(number!($field)),+)) -> $found {
                $found { $($field),+ }
            }
        }

        impl From<$found> for ($(number!($field)),+) {
            fn from(found: $found) -> ($(number!($field)),+) {
                ($(found.$field),+)
            }
        }

        impl PartialEq<($(number!($field)),+)> for $found {
            fn eq(&self, numbers: &($(number!($field)),+)) -> bool {
                ($(self.$field),+) == *numbers
            }
        }
    };
}

as_numbers!(Counted, 3: document, count, place);
as_numbers!(Matched, 2: document, count);
as_numbers!(Scored, 2: document, score);

/// The same slice as numbers, so many for each document.
pub(crate) fn numbers<F: Found>(answers: &mut [F]) -> (*mut u32, usize) {
    (answers.as_mut_ptr().cast::<u32>(), F::NUMBERS * answers.len())
}

/// Room for so many documents.
pub(crate) fn room<F: Found>(documents: usize) -> Vec<F> {
    vec![F::default(); documents]
}
