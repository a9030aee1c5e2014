//! The weighted top-k search, and the order in which it adds up scores.
use crate::archive::Archive;
use crate::argument::Argument;
use crate::found::{numbers, room, Scored};
use crate::refusal::{outcome, Refusal};
use crate::sys;
use crate::top_k::Ended;

/// Weighted top-k: the first k documents by larger score, equal scores by lower number, where rare terms weigh more.
impl Archive<'_> {
    /// The documents with an entry under one or more of one to eight terms, by their scores. A term that df different documents have weighs
    /// the largest g with 2^g × df^4 at most N^4, which is 0 to 48; a term without entries weighs 0. A document's score is the sum, over
    /// the terms, of the term's weight times the document's count under it: 0, with which it is listed too, to 3,145,680. A repeated term
    /// counts once: the first stands, later ones drop out. Scores are added up in the order of [`rarest_first`](Archive::rarest_first); they
    /// and the whole answer are the same whichever way the terms are typed. The search may open so many nodes as the allowance says.
    ///
    /// Cost: that of the order. For the weights, up to 4 ranks for each node where a term has two entries or more, at most h for each document
    /// of the term. Then 2 ranks, and 2 for each different term with an entry there, for each node opened and for each node above it that
    /// is not above the one opened before, at most h in all; for each node opened or document named a step in a heap of the waiting nodes;
    /// and 4 × N numbers cleared.
    ///
    /// ```
    /// use masuvelior::{write, Archive, Ended};
    ///
    /// // Term 0 is in each of the four documents, and weighs 0. Term 1 is in two of them, and weighs 4: 2^4 × 2^4 is 4^4.
    /// let bytes = write(&[0, 0, 0, 1, 2, 3, 3, 2, 2], &[6, 3], 4)?;
    /// let archive = Archive::open(&bytes)?;
    ///
    /// let (documents, ended) = archive.weighted(&[0, 1], 3, 100)?;
    /// assert_eq!(documents, [(2, 8), (3, 4), (0, 0)]);
    /// assert_eq!((documents[0].document, documents[0].score), (2, 8));
    /// assert_eq!(ended, Ended::Done { openings: 3 });
    ///
    /// // With two openings it can name those that have term 1.
    /// let (documents, ended) = archive.weighted(&[0, 1], 3, 2)?;
    /// assert_eq!(documents, [(2, 8), (3, 4)]);
    /// assert_eq!(ended, Ended::Spent { allowance: 2 });
    ///
    /// // Term 1 given twice counts once, and the terms may be typed in any order.
    /// assert_eq!(archive.weighted(&[1, 1], 3, 100)?, archive.weighted(&[1], 3, 100)?);
    /// assert_eq!(archive.weighted(&[1, 0, 1], 3, 2)?, archive.weighted(&[0, 1], 3, 2)?);
    /// # Ok::<(), masuvelior::Refusal>(())
    /// ```
    ///
    /// # Errors
    /// 10 for no term or more than eight, before any drops out; 11 where one of all that are given is W or more.
    pub fn weighted(&self, terms: &[u32], k: u32, allowance: u32) -> Result<(Vec<Scored>, Ended), Refusal> {
        let mut answers = room(self.answer_length(k));
        let mut work = vec![0; self.work_length()];
        let (found, ended) = self.weighted_into(terms, k, allowance, &mut answers, &mut work)?;
        let listed = found.len();
        answers.truncate(listed);
        Ok((answers, ended))
    }

    /// The same in slices of the caller's, as in [`greedy_into`](Archive::greedy_into).
    ///
    /// # Errors
    /// As [`weighted`](Archive::weighted); 12 where `answers` has under [`answer_length(k)`](Archive::answer_length) elements; 13 where
    /// `work` is under [`work_length`](Archive::work_length).
    pub fn weighted_into<'b>(
        &self,
        terms: &[u32],
        k: u32,
        allowance: u32,
        answers: &'b mut [Scored],
        work: &mut [u32],
    ) -> Result<(&'b [Scored], Ended), Refusal> {
        let (archive, archive_length) = self.lent();
        let (found, found_length) = numbers(answers);
        let (mut listed, mut spent, mut number) = (0, 0, 0);
        // SAFETY: POINTERS, WRITTEN and CONST by the references; OPENED by `Archive::open`, the only maker of an `Archive`.
        let answer = unsafe {
            sys::masuvelior_opened_weighted(
                archive,
                archive_length,
                terms.as_ptr(),
                terms.len(),
                k,
                allowance,
                found,
                found_length,
                work.as_mut_ptr(),
                work.len(),
                &mut listed,
                &mut spent,
                &mut number,
            )
        };
        outcome(answer, ()).map_err(|refusal| refusal.about(|| Argument::Term))?;
        Ok((&answers[..listed as usize], Ended::of(spent, number)))
    }
}

/// The order in which scores are added up.
impl Archive<'_> {
    /// The different ones among one to eight terms, each once, the term with the fewest entries first, of those with as many the lower
    /// number. Entries count, not different documents; terms without entries come first. Whichever way the terms are typed, in any order
    /// and repeated, it is the same. [`weighted`](Archive::weighted) adds up its scores in this order.
    ///
    /// Cost: two numbers of the term table for each different term, and comparisons of the terms with each other; no ranks.
    ///
    /// ```
    /// use masuvelior::{write, Archive, Argument, Refusal};
    ///
    /// // Terms 0, 1 and 2 have three entries, none and five.
    /// let bytes = write(&[3, 1, 0, 3, 2, 1, 3, 0], &[3, 0, 5], 4)?;
    /// let archive = Archive::open(&bytes)?;
    ///
    /// assert_eq!(archive.rarest_first(&[2, 0])?, [0, 2]);
    /// assert_eq!(archive.rarest_first(&[2, 1, 0])?, [1, 0, 2]);
    /// assert_eq!(archive.rarest_first(&[0, 0, 2])?, [0, 2]); // each once
    ///
    /// assert_eq!(archive.rarest_first(&[0; 9]), Err(Refusal::TermCount));
    /// assert_eq!(archive.rarest_first(&[0, 3]), Err(Refusal::Argument(Argument::Term)));
    /// # Ok::<(), Refusal>(())
    /// ```
    ///
    /// # Errors
    /// 10 for no term or more than eight, before any drops out; 11 where one of all that are given is W or more.
    pub fn rarest_first(&self, terms: &[u32]) -> Result<Vec<u32>, Refusal> {
        let mut order = [0; 8];
        Ok(self.rarest_first_into(terms, &mut order)?.to_vec())
    }

    /// The same in eight numbers of the caller's, all of which are written: the order, which is answered, is their front, and the rest is 0.
    /// A refusal writes none of them.
    ///
    /// ```
    /// let bytes = masuvelior::write(&[3, 1, 0, 3, 2, 1, 3, 0], &[3, 0, 5], 4)?;
    /// let archive = masuvelior::Archive::open(&bytes)?;
    ///
    /// let mut order = [9; 8];
    /// assert!(archive.rarest_first_into(&[2, 3], &mut order).is_err());
    /// assert_eq!(order, [9; 8]);
    ///
    /// assert_eq!(archive.rarest_first_into(&[2, 1, 2, 0], &mut order)?, [1, 0, 2]);
    /// assert_eq!(order, [1, 0, 2, 0, 0, 0, 0, 0]);
    /// # Ok::<(), masuvelior::Refusal>(())
    /// ```
    ///
    /// # Errors
    /// As [`rarest_first`](Archive::rarest_first): eight numbers are room for every order.
    pub fn rarest_first_into<'b>(&self, terms: &[u32], order: &'b mut [u32; 8]) -> Result<&'b [u32], Refusal> {
        let (archive, length) = self.lent();
        let mut size = 0;
        // SAFETY: POINTERS, WRITTEN and CONST by the references; OPENED by `Archive::open`, the only maker of an `Archive`.
        let answer = unsafe {
            sys::masuvelior_opened_rarest_first(archive, length, terms.as_ptr(), terms.len(), order, &mut size)
        };
        outcome(answer, ()).map_err(|refusal| refusal.about(|| Argument::Term))?;
        Ok(&order[..size as usize])
    }
}
