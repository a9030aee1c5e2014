//! Questions with and, or, not.
use crate::archive::Archive;
use crate::argument::Argument;
use crate::refusal::{outcome, Refusal};
use crate::sys;

/// Questions with and, or, not.
impl Archive<'_> {
    /// Every document that matches a question, ascending. A question is up to 64 numbers: terms, which are below 4,096, and
    /// [`marks`](crate::marks). A term matches the documents with an entry under it; 'not' matches all other documents of the archive, and
    /// may be repeated. 'Not' binds tightest, then 'and', then 'or'; equal ones group to the left; brackets nest at most eight deep, for
    /// which 'not' does not count. [`Expr`](crate::Expr) writes such questions.
    ///
    /// Cost: the question is read twice, and once more for each 64 of the N documents among which a term has one; for each different term, up
    /// to 4 ranks for each node of the tree with an entry of the term in it, at most h for each document of the term.
    ///
    /// ```
    /// use masuvelior::marks::{AND, CLOSE, NOT, OPEN, OR};
    /// use masuvelior::{write, Archive, Expr, Refusal};
    ///
    /// // Term 0 is in documents 0, 1 and 3, term 1 in none, term 2 in all.
    /// let bytes = write(&[3, 1, 0, 3, 2, 1, 3, 0], &[3, 0, 5], 4)?;
    /// let archive = Archive::open(&bytes)?;
    ///
    /// assert_eq!(archive.boolean(&[2, AND, NOT, 0, OR, 1])?, [2]); // (2 and (not 0)) or 1
    /// assert_eq!(archive.boolean(&[0, OR, 2, AND, 1])?, [0, 1, 3]); // 0 or (2 and 1)
    /// assert!(archive.boolean(&[OPEN, 0, OR, 2, CLOSE, AND, 1])?.is_empty());
    /// assert_eq!(archive.boolean((!Expr::term(1)).numbers())?, [0, 1, 2, 3]);
    ///
    /// assert_eq!(archive.boolean(&[0, AND]), Err(Refusal::Question));
    /// # Ok::<(), Refusal>(())
    /// ```
    ///
    /// # Errors
    /// 18 for a question that is empty, too long, too deep or without a reading, where a number that is neither a term nor a mark leaves it
    /// without one; else 11 where a term is W or more.
    pub fn boolean(&self, question: &[u16]) -> Result<Vec<u32>, Refusal> {
        let mut answers = vec![0; self.documents() as usize];
        let listed = self.boolean_into(question, &mut answers)?.len();
        answers.truncate(listed);
        Ok(answers)
    }

    /// The same in the front of a slice of the caller's, whose rest is untouched.
    ///
    /// ```
    /// use masuvelior::{write, Archive, Expr};
    ///
    /// let bytes = write(&[3, 1, 0, 3, 2, 1, 3, 0], &[3, 0, 5], 4)?;
    /// let archive = Archive::open(&bytes)?;
    ///
    /// // Slices for every question of this archive.
    /// let mut answers = vec![0; archive.documents() as usize];
    /// for term in 0..archive.terms() {
    ///     let without = archive.boolean_into((!Expr::term(term)).numbers(), &mut answers)?;
    ///     assert_eq!(without.len(), [1, 4, 0][term as usize]);
    /// }
    /// # Ok::<(), masuvelior::Refusal>(())
    /// ```
    ///
    /// # Errors
    /// As [`boolean`](Archive::boolean), and then 12 where the slice has under N numbers.
    pub fn boolean_into<'b>(&self, question: &[u16], answers: &'b mut [u32]) -> Result<&'b [u32], Refusal> {
        let (archive, archive_length) = self.lent();
        let mut listed = 0;
        // SAFETY: POINTERS, WRITTEN and CONST by the references; OPENED by `Archive::open`, the only maker of an `Archive`.
        let answer = unsafe {
            sys::masuvelior_opened_boolean(
                archive,
                archive_length,
                question.as_ptr(),
                question.len(),
                answers.as_mut_ptr(),
                answers.len(),
                &mut listed,
            )
        };
        outcome(answer, ()).map_err(|refusal| refusal.about(|| Argument::Term))?;
        Ok(&answers[..listed as usize])
    }
}
