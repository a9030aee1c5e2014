//! The questions asked of an archive; top-k and questions with and, or, not have files of their own.
use crate::archive::Archive;
use crate::argument::Argument;
use crate::found::{numbers, room, Counted, Matched};
use crate::range::{term_ends, Over};
use crate::refusal::{outcome, Refusal};
use crate::sys;
use std::ops::{Range, RangeInclusive};

/// Questions of one number.
impl Archive<'_> {
    /// The entry at a place. Cost: 3 × h ranks.
    ///
    /// # Errors
    /// 11 where the place is n or more.
    pub fn access(&self, place: u32) -> Result<u32, Refusal> {
        let (archive, length) = self.lent();
        let mut document = 0;
        // SAFETY: POINTERS, WRITTEN and CONST by the references; OPENED by `Archive::open`, the only maker of an `Archive`.
        let answer = unsafe { sys::masuvelior_opened_access(archive, length, place, &mut document) };
        outcome(answer, document).map_err(|refusal| refusal.about(|| Argument::Place))
    }

    /// How many entries before a place are this document; the place may be n. Cost: 3 ranks a row, 2 in the last.
    ///
    /// # Errors
    /// 11 where the document is N or more, or the place is above n.
    pub fn rank(&self, document: u32, place: u32) -> Result<u32, Refusal> {
        let (archive, length) = self.lent();
        let mut count = 0;
        // SAFETY: POINTERS, WRITTEN and CONST by the references; OPENED by `Archive::open`, the only maker of an `Archive`.
        let answer = unsafe { sys::masuvelior_opened_rank(archive, length, document, place, &mut count) };
        outcome(answer, count).map_err(|refusal| refusal.about(|| self.fault(document, Argument::Before)))
    }

    /// How many entries before a place belong to a set of documents, each entry once; the place may be n. A set is up to 64 documents,
    /// strictly ascending. An empty one counts 0; all N documents, where they are 64 or fewer, count `place`.
    ///
    /// Cost: the set is read once, and for each row at most once more. Then one descent for the whole set, through at most h nodes of the
    /// tree for each document: 3 ranks where the set goes to one half of a node, 4 where it parts. Where all numbers of a node are in the
    /// set, 2 in the row above it, and nothing at and below it; where the set parts, nothing in a half without an entry before the place.
    ///
    /// ```
    /// use masuvelior::{write, Archive, Argument, Refusal};
    ///
    /// let bytes = write(&[3, 1, 0, 3, 2, 1, 3, 0], &[3, 0, 5], 4)?;
    /// let archive = Archive::open(&bytes)?;
    ///
    /// assert_eq!(archive.rank_set(&[0, 3], 8)?, 5);
    /// assert_eq!(archive.rank_set(&[0, 3], 3)?, 2); // of 3, 1, 0
    /// assert_eq!(archive.rank_set(&[3], 8)?, archive.rank(3, 8)?);
    /// assert_eq!(archive.rank_set(&[], 8)?, 0);
    /// assert_eq!(archive.rank_set(&[0, 1, 2, 3], 5)?, 5);
    ///
    /// assert_eq!(archive.rank_set(&[3, 0], 8), Err(Refusal::Set));
    /// assert_eq!(archive.rank_set(&[0, 4], 8), Err(Refusal::Argument(Argument::Document)));
    /// # Ok::<(), Refusal>(())
    /// ```
    ///
    /// # Errors
    /// 19 for a set that is too long or not strictly ascending; else 11 where a document is N or more, or the place is above n.
    pub fn rank_set(&self, set: &[u32], place: u32) -> Result<u32, Refusal> {
        let (archive, length) = self.lent();
        let mut count = 0;
        // SAFETY: POINTERS, WRITTEN and CONST by the references; OPENED by `Archive::open`, the only maker of an `Archive`.
        let answer =
            unsafe { sys::masuvelior_opened_rank_set(archive, length, set.as_ptr(), set.len(), place, &mut count) };
        // What is refused as 11 ascends, so that its last document is the largest.
        let largest = set.last().copied().unwrap_or(0);
        outcome(answer, count).map_err(|refusal| refusal.about(|| self.fault(largest, Argument::Before)))
    }

    /// The place of the j-th entry that is this document, j from 1; n, one past the end, where there are fewer, and nowhere else. So a walk
    /// over its places, j = 1, 2, .., ends at n. Cost: 2 × h ranks; where the entry is there, in each row a search among its samples too,
    /// by halves, and 64 bytes.
    ///
    /// ```
    /// let bytes = masuvelior::write(&[3, 1, 0, 3, 2, 1, 3, 0], &[3, 0, 5], 4)?;
    /// let archive = masuvelior::Archive::open(&bytes)?;
    /// let n = archive.entries();
    /// assert_eq!(n, 8);
    /// assert_eq!(archive.select(0, 3)?, n); // there is no third 0
    ///
    /// let walk = (1..).map(|j| archive.select(3, j)).take_while(|place| *place != Ok(n));
    /// assert_eq!(walk.collect::<Result<Vec<u32>, _>>()?, [0, 3, 6]); // the places of 3
    /// # Ok::<(), masuvelior::Refusal>(())
    /// ```
    ///
    /// # Errors
    /// 11 where the document is N or more, or j is 0.
    pub fn select(&self, document: u32, j: u32) -> Result<u32, Refusal> {
        let (archive, length) = self.lent();
        let mut place = 0;
        // SAFETY: POINTERS, WRITTEN and CONST by the references; OPENED by `Archive::open`, the only maker of an `Archive`.
        let answer = unsafe { sys::masuvelior_opened_select(archive, length, document, j, &mut place) };
        outcome(answer, place).map_err(|refusal| refusal.about(|| self.fault(document, Argument::Occurrence)))
    }

    /// The document at rank r, from 0, if the range were sorted. Cost: 4 × h ranks.
    ///
    /// # Errors
    /// 11 where the range is crossed or reaches past the archive, or r is not below its size.
    pub fn quantile(&self, over: Over, r: u32) -> Result<u32, Refusal> {
        let ask = match over {
            Over::Entries(_) => sys::masuvelior_opened_quantile,
            Over::Terms(_) => sys::masuvelior_opened_quantile_terms,
        };
        let (from, to) = over.ends();
        let (archive, length) = self.lent();
        let mut document = 0;
        // SAFETY: POINTERS, WRITTEN and CONST by the references; OPENED by `Archive::open`, the only maker of an `Archive`.
        let answer = unsafe { ask(archive, length, from, to, r, &mut document) };
        outcome(answer, document).map_err(|refusal| refusal.about(|| over.fault(self).unwrap_or(Argument::Rank)))
    }

    /// The entries of the terms first to last, from the start of the first to the end of the last. Cost: two numbers of the term table.
    ///
    /// # Errors
    /// 11 where the terms are crossed, or one is W or more.
    pub fn range_of_terms(&self, terms: RangeInclusive<u32>) -> Result<Range<u32>, Refusal> {
        let (first, last) = term_ends(&terms);
        let (archive, length) = self.lent();
        let (mut from, mut to) = (0, 0);
        // SAFETY: POINTERS, WRITTEN and CONST by the references; OPENED by `Archive::open`, the only maker of an `Archive`.
        let answer = unsafe { sys::masuvelior_opened_range_of_terms(archive, length, first, last, &mut from, &mut to) };
        outcome(answer, from..to).map_err(|refusal| self.about_range(refusal, &Over::Terms(terms)))
    }

    /// What is wrong about a document or another argument, where one of them is.
    fn fault(&self, document: u32, other: Argument) -> Argument {
        if document >= self.documents() {
            return Argument::Document;
        }
        other
    }

    /// A refusal with the name of what is wrong about a range.
    pub(crate) fn about_range(&self, refusal: Refusal, over: &Over) -> Refusal {
        refusal.about(|| over.fault(self).unwrap_or(Argument::Unnamed))
    }
}

/// Questions of documents with their counts.
impl Archive<'_> {
    /// Every document of the range once, ascending, with its count and the place of its first entry in the range, counted from entry 0.
    /// Cost: 4 ranks for each node of the tree with an entry of the range in it, at most h for each document listed; then one step a row for
    /// each entry of the range.
    ///
    /// ```
    /// use masuvelior::{write, Archive, Over::Entries};
    ///
    /// let bytes = write(&[3, 1, 0, 3, 2, 1, 3, 0], &[3, 0, 5], 4)?;
    /// let archive = Archive::open(&bytes)?;
    ///
    /// let documents = archive.list(Entries(3..8))?;
    /// assert_eq!(documents, [(0, 1, 7), (1, 1, 5), (2, 1, 4), (3, 2, 3)]);
    /// assert_eq!(archive.access(documents[0].place)?, documents[0].document); // 0 first stands at 7 there, though it stands at 2 too
    /// # Ok::<(), masuvelior::Refusal>(())
    /// ```
    ///
    /// # Errors
    /// 11 where the range is crossed or reaches past the archive.
    pub fn list(&self, over: Over) -> Result<Vec<Counted>, Refusal> {
        let mut answers = room(self.documents() as usize);
        let listed = self.list_into(over, &mut answers)?.len();
        answers.truncate(listed);
        Ok(answers)
    }

    /// The same in the front of a slice of the caller's, whose rest is untouched.
    ///
    /// # Errors
    /// As [`list`](Archive::list), and 12 where the slice has under N elements.
    pub fn list_into<'b>(&self, over: Over, answers: &'b mut [Counted]) -> Result<&'b [Counted], Refusal> {
        let ask = match over {
            Over::Entries(_) => sys::masuvelior_opened_list,
            Over::Terms(_) => sys::masuvelior_opened_list_terms,
        };
        let (from, to) = over.ends();
        let (archive, length) = self.lent();
        let (found, found_length) = numbers(answers);
        let mut listed = 0;
        // SAFETY: POINTERS, WRITTEN and CONST by the references; OPENED by `Archive::open`, the only maker of an `Archive`.
        let answer = unsafe { ask(archive, length, from, to, found, found_length, &mut listed) };
        outcome(answer, ()).map_err(|refusal| self.about_range(refusal, &over))?;
        Ok(&answers[..listed as usize])
    }

    /// The documents with an entry under each of one to eight terms, ascending, with the sum of their counts. A repeated term counts
    /// once: the first stands, later ones drop out. Cost: 2 ranks, and 2 for each different term, for each node in which every term has an
    /// entry, at most h for each document of the shortest term.
    ///
    /// # Errors
    /// 10 for no term or more than eight, before any drops out; 11 where one of all that are given is W or more.
    pub fn conjunction(&self, terms: &[u32]) -> Result<Vec<Matched>, Refusal> {
        let mut answers = room(self.documents() as usize);
        let listed = self.conjunction_into(terms, &mut answers)?.len();
        answers.truncate(listed);
        Ok(answers)
    }

    /// The same in the front of a slice of the caller's, whose rest is untouched.
    ///
    /// # Errors
    /// As [`conjunction`](Archive::conjunction), and 12 where the slice has under N elements.
    pub fn conjunction_into<'b>(&self, terms: &[u32], answers: &'b mut [Matched]) -> Result<&'b [Matched], Refusal> {
        let (archive, archive_length) = self.lent();
        let (found, found_length) = numbers(answers);
        let mut listed = 0;
        // SAFETY: POINTERS, WRITTEN and CONST by the references; OPENED by `Archive::open`, the only maker of an `Archive`.
        let answer = unsafe {
            sys::masuvelior_opened_conjunction(
                archive,
                archive_length,
                terms.as_ptr(),
                terms.len(),
                found,
                found_length,
                &mut listed,
            )
        };
        outcome(answer, ()).map_err(|refusal| refusal.about(|| Argument::Term))?;
        Ok(&answers[..listed as usize])
    }
}
