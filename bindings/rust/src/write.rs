//! The writer.
use crate::refusal::{outcome, Refusal};
use crate::sys;

/// The archive of a library: its entries, those of term 0 first; how many entries each term has; and the number of its documents. Cost:
/// h × (n + N) steps.
///
/// ```
/// use masuvelior::{write, Archive, Refusal};
///
/// let bytes = write(&[3, 1, 0, 3, 2, 1, 3, 0], &[3, 0, 5], 4)?;
/// assert_eq!(bytes.len(), 74);
/// assert_eq!(Archive::open(&bytes)?.read(), (vec![3, 1, 0, 3, 2, 1, 3, 0], vec![3, 0, 5]));
///
/// assert_eq!(write(&[4], &[1], 4), Err(Refusal::WriterEntry)); // documents are 0 to 3
/// # Ok::<(), Refusal>(())
/// ```
///
/// # Errors
/// 14 to 16 of the table: numbers outside their limits, an entry that is no document, or lengths that do not add up.
pub fn write(entries: &[u32], lengths: &[u32], documents: u32) -> Result<Vec<u8>, Refusal> {
    let length = archive_length(entries.len(), documents, lengths.len())?;
    let mut archive = vec![0; length];
    write_into(entries, lengths, documents, &mut archive)?;
    Ok(archive)
}

/// Writes the archive into the front of `target`, whose rest is untouched, and answers its length.
///
/// # Errors
/// As [`write()`], and 17 where the target is shorter than the archive.
pub fn write_into(entries: &[u32], lengths: &[u32], documents: u32, target: &mut [u8]) -> Result<usize, Refusal> {
    let mut length = 0;
    // SAFETY: POINTERS, WRITTEN and CONST by the references; `length` is our own.
    let answer = unsafe {
        sys::masuvelior_write(
            entries.as_ptr(),
            entries.len(),
            lengths.as_ptr(),
            lengths.len(),
            documents,
            target.as_mut_ptr(),
            target.len(),
            &mut length,
        )
    };
    outcome(answer, length)
}

/// The length in bytes of an archive of so many entries, documents and terms.
///
/// # Errors
/// 14 where one of them is outside its limits.
pub fn archive_length(entries: usize, documents: u32, terms: usize) -> Result<usize, Refusal> {
    let mut length = 0;
    // SAFETY: POINTERS and WRITTEN by the reference to `length`, which is our own.
    let answer = unsafe { sys::masuvelior_archive_length(number(entries), documents, number(terms), &mut length) };
    outcome(answer, length)
}

/// A length as a number of the header. One that does not fit is above every limit, and so is what stands for it.
fn number(length: usize) -> u32 {
    u32::try_from(length).unwrap_or(u32::MAX)
}
