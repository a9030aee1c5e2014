//! The two top-k searches by count.
use crate::archive::Archive;
use crate::found::{numbers, room, Counted};
use crate::range::Over;
use crate::refusal::{outcome, Refusal};
use crate::sys;

/// How a search with an allowance ended, greedy or weighted.
#[derive(Clone, Copy, Debug, PartialEq, Eq, Hash)]
pub enum Ended {
    /// It is done: the answer is whole, and took so many openings.
    Done {
        /// How many nodes were opened.
        openings: u32,
    },
    /// The allowance was spent first: the answer is the front that it covers.
    Spent {
        /// The allowance that was given.
        allowance: u32,
    },
}

impl Ended {
    /// What the header's `spent` and `number` say.
    pub(crate) fn of(spent: u32, number: u32) -> Ended {
        match spent {
            0 => Ended::Done { openings: number },
            _ => Ended::Spent { allowance: number },
        }
    }
}

/// Top-k: the first k documents of a range by larger count, equal counts by lower number, each with its count and the place of its first entry
/// in the range, counted from entry 0.
impl Archive<'_> {
    /// The greedy search, which may open so many nodes as the allowance says. Cost: 4 ranks for each node opened; for each node opened or
    /// document named a step in a heap of the waiting nodes; for each document listed a walk down the tree and back, which finds its first
    /// place; and 4 × N numbers cleared.
    ///
    /// ```
    /// use masuvelior::{write, Archive, Ended, Over::Entries};
    ///
    /// let bytes = write(&[3, 1, 0, 3, 2, 1, 3, 0], &[3, 0, 5], 4)?;
    /// let archive = Archive::open(&bytes)?;
    ///
    /// let (documents, ended) = archive.greedy(Entries(1..4), 3, 2)?;
    /// assert_eq!(documents, [(0, 1, 2), (1, 1, 1)]); // document, count, first place
    /// assert_eq!((documents[0].document, documents[0].count, documents[0].place), (0, 1, 2));
    /// assert_eq!(ended, Ended::Spent { allowance: 2 });
    /// # Ok::<(), masuvelior::Refusal>(())
    /// ```
    ///
    /// # Errors
    /// 11 where the range is crossed or reaches past the archive.
    pub fn greedy(&self, over: Over, k: u32, allowance: u32) -> Result<(Vec<Counted>, Ended), Refusal> {
        let mut answers = room(self.answer_length(k));
        let mut work = vec![0; self.work_length()];
        let (found, ended) = self.greedy_into(over, k, allowance, &mut answers, &mut work)?;
        let listed = found.len();
        answers.truncate(listed);
        Ok((answers, ended))
    }

    /// The greedy search in slices of the caller's: the answer is the front of `answers`, the rest of it is untouched. The first
    /// [`work_length`](Archive::work_length) numbers of `work` are 0 afterwards; what it held before does not matter.
    ///
    /// ```
    /// use masuvelior::{write, Archive, Counted, Over::Terms};
    ///
    /// let bytes = write(&[3, 1, 0, 3, 2, 1, 3, 0], &[3, 0, 5], 4)?;
    /// let archive = Archive::open(&bytes)?;
    ///
    /// // One allocation, many questions.
    /// let mut answers = [Counted::default(); 2];
    /// let mut work = vec![0; archive.work_length()];
    /// for term in 0..archive.terms() {
    ///     let (documents, _) = archive.greedy_into(Terms(term..=term), 2, 100, &mut answers, &mut work)?;
    ///     assert!(documents.len() <= 2);
    /// }
    /// # Ok::<(), masuvelior::Refusal>(())
    /// ```
    ///
    /// # Errors
    /// As [`greedy`](Archive::greedy); 12 where `answers` has under [`answer_length(k)`](Archive::answer_length) elements; 13 where `work`
    /// is under its length.
    pub fn greedy_into<'b>(
        &self,
        over: Over,
        k: u32,
        allowance: u32,
        answers: &'b mut [Counted],
        work: &mut [u32],
    ) -> Result<(&'b [Counted], Ended), Refusal> {
        let ask = match over {
            Over::Entries(_) => sys::masuvelior_opened_greedy_entries,
            Over::Terms(_) => sys::masuvelior_opened_greedy_terms,
        };
        let (from, to) = over.ends();
        let (archive, archive_length) = self.lent();
        let (found, found_length) = numbers(answers);
        let (mut listed, mut spent, mut number) = (0, 0, 0);
        // SAFETY: POINTERS, WRITTEN and CONST by the references; OPENED by `Archive::open`, the only maker of an `Archive`.
        let answer = unsafe {
            ask(
                archive,
                archive_length,
                from,
                to,
                k,
                allowance,
                found,
                found_length,
                work.as_mut_ptr(),
                work.len(),
                &mut listed,
                &mut spent,
                &mut number,
            )
        };
        outcome(answer, ()).map_err(|refusal| self.about_range(refusal, &over))?;
        Ok((&answers[..listed as usize], Ended::of(spent, number)))
    }

    /// The whole answer by probing, without an allowance. Cost: 4 × h ranks for each probe. Where the last of k documents has count c,
    /// there are fewer than 2 × size / c probes of a range of that size, and never more than size; each new document is put in order among
    /// the k; for each document listed a walk down the tree and back, which finds its first place; and 5 × N numbers are cleared.
    ///
    /// ```
    /// use masuvelior::{write, Archive, Over::Entries};
    ///
    /// let bytes = write(&[3, 1, 0, 3, 2, 1, 3, 0], &[3, 0, 5], 4)?;
    /// let archive = Archive::open(&bytes)?;
    /// assert_eq!(archive.probing(Entries(0..8), 3)?, [(3, 3, 0), (0, 2, 2), (1, 2, 1)]);
    /// # Ok::<(), masuvelior::Refusal>(())
    /// ```
    ///
    /// # Errors
    /// 11 where the range is crossed or reaches past the archive.
    pub fn probing(&self, over: Over, k: u32) -> Result<Vec<Counted>, Refusal> {
        let mut answers = room(self.answer_length(k));
        let mut work = vec![0; self.work_length()];
        let listed = self.probing_into(over, k, &mut answers, &mut work)?.len();
        answers.truncate(listed);
        Ok(answers)
    }

    /// The whole answer by probing, in slices of the caller's, as in [`greedy_into`](Archive::greedy_into).
    ///
    /// # Errors
    /// As [`greedy_into`](Archive::greedy_into).
    pub fn probing_into<'b>(
        &self,
        over: Over,
        k: u32,
        answers: &'b mut [Counted],
        work: &mut [u32],
    ) -> Result<&'b [Counted], Refusal> {
        let ask = match over {
            Over::Entries(_) => sys::masuvelior_opened_probing_entries,
            Over::Terms(_) => sys::masuvelior_opened_probing_terms,
        };
        let (from, to) = over.ends();
        let (archive, archive_length) = self.lent();
        let (found, found_length) = numbers(answers);
        let mut listed = 0;
        // SAFETY: POINTERS, WRITTEN and CONST by the references; OPENED by `Archive::open`, the only maker of an `Archive`.
        let answer = unsafe {
            ask(archive, archive_length, from, to, k, found, found_length, work.as_mut_ptr(), work.len(), &mut listed)
        };
        outcome(answer, ()).map_err(|refusal| self.about_range(refusal, &over))?;
        Ok(&answers[..listed as usize])
    }

    /// How many documents an answer of top-k, weighted too, may have, and so how many elements must be lent for it: k, or N where that is less.
    pub fn answer_length(&self, k: u32) -> usize {
        k.min(self.documents()) as usize
    }

    /// How many numbers must be lent to top-k, weighted too, for its work: 4 × N.
    pub fn work_length(&self) -> usize {
        4 * self.documents() as usize
    }
}
