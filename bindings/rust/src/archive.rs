//! An archive: the check on opening, and its reader.
use crate::refusal::{outcome, Refusal};
use crate::sys;
use std::fmt;

/// An archive that was checked once, on opening.
///
/// It borrows the bytes: while it lives nobody can change them, which is what the questions without a check assume. It is two words and
/// three numbers, may be copied, and may be asked from several threads at once.
///
/// ```
/// use masuvelior::{write, Archive, Argument, Over::{Entries, Terms}, Refusal};
///
/// let bytes = write(&[3, 1, 0, 3, 2, 1, 3, 0], &[3, 0, 5], 4)?;
/// let archive = Archive::open(&bytes)?;
/// assert_eq!((archive.entries(), archive.documents(), archive.terms()), (8, 4, 3));
///
/// assert_eq!(archive.access(4), Ok(2)); // entry at 4
/// assert_eq!(archive.rank(3, 3), Ok(1)); // count of 3 before 3
/// assert_eq!(archive.rank_set(&[0, 3], 3), Ok(2)); // count of 0 and 3 together
/// assert_eq!(archive.select(0, 2), Ok(7)); // place of the second 0
/// assert_eq!(archive.select(0, 3), Ok(8)); // there is no third: n
/// assert_eq!(archive.quantile(Entries(0..8), 4), Ok(2)); // the fifth, if they were sorted
/// assert_eq!(archive.list(Terms(0..=0))?, [(0, 1, 2), (1, 1, 1), (3, 1, 0)]); // each with its count and first place
/// assert_eq!(archive.conjunction(&[0, 0])?, [(0, 1), (1, 1), (3, 1)]); // a repeated term counts once
/// assert_eq!(archive.range_of_terms(1..=2), Ok(3..8));
/// assert_eq!(archive.rarest_first(&[2, 1, 0])?, [1, 0, 2]); // by number of entries
///
/// assert_eq!(archive.access(8), Err(Refusal::Argument(Argument::Place)));
/// # Ok::<(), Refusal>(())
/// ```
///
/// The bytes stay borrowed:
///
/// ```compile_fail,E0506
/// let mut bytes = masuvelior::write(&[0], &[1], 1).unwrap();
/// let archive = masuvelior::Archive::open(&bytes).unwrap();
/// bytes[0] = 2;
/// archive.access(0);
/// ```
#[derive(Clone, Copy)]
pub struct Archive<'a> {
    bytes: &'a [u8],
    entries: u32,
    documents: u32,
    terms: u32,
}

impl<'a> Archive<'a> {
    /// Checks the bytes and borrows them. Cost: each byte once, and 4 × h ranks. They must be memory that only Rust writes: read a file, or map one that nobody else changes.
    ///
    /// # Errors
    /// 1 to 9 of the table, where they are no archive.
    pub fn open(bytes: &'a [u8]) -> Result<Archive<'a>, Refusal> {
        let (mut entries, mut documents, mut terms) = (0, 0, 0);
        // SAFETY: POINTERS, WRITTEN and CONST by the references; the three numbers are our own.
        let answer =
            unsafe { sys::masuvelior_open(bytes.as_ptr(), bytes.len(), &mut entries, &mut documents, &mut terms) };
        outcome(answer, ())?;
        Ok(Archive { bytes, entries, documents, terms })
    }

    /// Its bytes.
    pub fn bytes(&self) -> &'a [u8] {
        self.bytes
    }

    /// n, the number of entries.
    pub fn entries(&self) -> u32 {
        self.entries
    }

    /// N, the number of documents.
    pub fn documents(&self) -> u32 {
        self.documents
    }

    /// W, the number of terms.
    pub fn terms(&self) -> u32 {
        self.terms
    }

    /// The bytes as the header takes them.
    pub(crate) fn lent(&self) -> (*const u8, usize) {
        (self.bytes.as_ptr(), self.bytes.len())
    }
}

impl fmt::Debug for Archive<'_> {
    fn fmt(&self, f: &mut fmt::Formatter<'_>) -> fmt::Result {
        f.debug_struct("Archive")
            .field("entries", &self.entries)
            .field("documents", &self.documents)
            .field("terms", &self.terms)
            .finish_non_exhaustive()
    }
}

/// The reader.
impl Archive<'_> {
    /// The entries, and how many of them each term has: what was given to the writer. Cost: h × (n + N) steps.
    pub fn read(&self) -> (Vec<u32>, Vec<u32>) {
        let mut entries = vec![0; self.entries as usize];
        let mut lengths = vec![0; self.terms as usize];
        self.read_into(&mut entries, &mut lengths).expect("slices of n and of W numbers are long enough");
        (entries, lengths)
    }

    /// Reads into the fronts of two slices of the caller's, whose rest is untouched.
    ///
    /// # Errors
    /// 12 where a slice is under n or under W numbers.
    pub fn read_into(&self, entries: &mut [u32], lengths: &mut [u32]) -> Result<(), Refusal> {
        let (archive, archive_length) = self.lent();
        let (mut n, mut documents, mut terms) = (0, 0, 0);
        // SAFETY: POINTERS, WRITTEN and CONST by the references; OPENED by `Archive::open`, the only maker of an `Archive`.
        let answer = unsafe {
            sys::masuvelior_opened_read(
                archive,
                archive_length,
                entries.as_mut_ptr(),
                entries.len(),
                lengths.as_mut_ptr(),
                lengths.len(),
                &mut n,
                &mut documents,
                &mut terms,
            )
        };
        outcome(answer, ())
    }
}
