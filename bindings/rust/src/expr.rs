//! Expressions with and, or, not, and the questions that they are written as.
use crate::marks::{AND, CLOSE, NOT, OPEN, OR};
use std::ops::{BitAnd, BitOr, Not};

/// What binds loosest in an expression, from the loosest.
#[derive(Clone, Copy, Debug, PartialEq, Eq, PartialOrd, Ord, Hash)]
enum Level {
    Disjunction,
    Conjunction,
    Negation,
}

/// An expression with and, or, not: the safe way to write a question for [`Archive::boolean`](crate::Archive::boolean).
///
/// It is held as the question's numbers, which have only the brackets that are needed for the reading to be this very expression. So equal
/// expressions have equal numbers, and others have others. `!`, `&` and `|` bind in Rust as 'not', 'and' and 'or' do in a question.
///
/// ```
/// use masuvelior::marks::{AND, CLOSE, NOT, OPEN, OR};
/// use masuvelior::{write, Archive, Expr};
///
/// let (wreck, removed, obstruction) = (Expr::term(7), Expr::term(8), Expr::term(9));
/// let question = wreck.and(!removed).or(obstruction);
/// assert_eq!(question.numbers(), [7, AND, NOT, 8, OR, 9]);
/// assert_eq!(question, Expr::term(7) & !Expr::term(8) | Expr::term(9));
///
/// // Equal marks group to the left: brackets stand where an expression does otherwise.
/// let [x, y, z] = [0, 1, 2].map(Expr::term);
/// assert_eq!((x.clone() & y.clone() & z.clone()).numbers(), [0, AND, 1, AND, 2]);
/// assert_eq!((x & (y & z)).numbers(), [0, AND, OPEN, 1, AND, 2, CLOSE]);
///
/// let bytes = write(&[3, 1, 0, 3, 2, 1, 3, 0], &[3, 0, 5], 4)?;
/// let question = Expr::term(2) & !Expr::term(0);
/// assert_eq!(Archive::open(&bytes)?.boolean(question.numbers())?, [2]);
/// # Ok::<(), masuvelior::Refusal>(())
/// ```
///
/// An expression may be of any size. One of more than 64 numbers, or with more than eight brackets open at once, is refused as
/// [`Refusal::Question`](crate::Refusal::Question) where it is asked.
#[derive(Clone, Debug, PartialEq, Eq, Hash)]
pub struct Expr {
    numbers: Vec<u16>,
    level: Level,
}

impl Expr {
    /// The documents with an entry under a term. Terms of 4,096 or more, which no archive has, are all alike: they leave the question without a
    /// reading.
    ///
    /// ```
    /// use masuvelior::{write, Archive, Argument, Expr, Refusal};
    ///
    /// let bytes = write(&[3, 1, 0, 3, 2, 1, 3, 0], &[3, 0, 5], 4)?;
    /// let archive = Archive::open(&bytes)?;
    /// assert_eq!(archive.boolean(Expr::term(0).numbers())?, [0, 1, 3]);
    /// assert_eq!(archive.boolean(Expr::term(3).numbers()), Err(Refusal::Argument(Argument::Term)));
    /// assert_eq!(archive.boolean(Expr::term(4_096).numbers()), Err(Refusal::Question));
    /// # Ok::<(), Refusal>(())
    /// ```
    pub fn term(term: u32) -> Expr {
        Expr { numbers: vec![number(term)], level: Level::Negation }
    }

    /// The documents that match both.
    ///
    /// ```
    /// use masuvelior::marks::{AND, CLOSE, OPEN, OR};
    /// use masuvelior::Expr;
    ///
    /// let both = Expr::term(1).or(Expr::term(2)).and(Expr::term(3));
    /// assert_eq!(both.numbers(), [OPEN, 1, OR, 2, CLOSE, AND, 3]);
    /// ```
    pub fn and(self, other: Expr) -> Expr {
        let numbers = joined(self.binding(Level::Conjunction), AND, other.binding(Level::Negation));
        Expr { numbers, level: Level::Conjunction }
    }

    /// The documents that match one of them, or both.
    ///
    /// ```
    /// use masuvelior::marks::{AND, OR};
    /// use masuvelior::Expr;
    ///
    /// let either = Expr::term(1).or(Expr::term(2).and(Expr::term(3)));
    /// assert_eq!(either.numbers(), [1, OR, 2, AND, 3]);
    /// ```
    pub fn or(self, other: Expr) -> Expr {
        let numbers = joined(self.binding(Level::Disjunction), OR, other.binding(Level::Conjunction));
        Expr { numbers, level: Level::Disjunction }
    }

    /// The question's numbers: terms, and [`marks`](crate::marks).
    pub fn numbers(&self) -> &[u16] {
        &self.numbers
    }

    /// Its numbers where something that binds like this is wanted: in brackets where it binds looser.
    fn binding(self, level: Level) -> Vec<u16> {
        if self.level >= level {
            return self.numbers;
        }
        [&[OPEN], self.numbers.as_slice(), &[CLOSE]].concat()
    }
}

/// All other documents of the archive.
///
/// ```
/// use masuvelior::marks::{AND, CLOSE, NOT, OPEN};
/// use masuvelior::Expr;
///
/// assert_eq!((!!Expr::term(1)).numbers(), [NOT, NOT, 1]);
/// assert_eq!((!(Expr::term(1) & Expr::term(2))).numbers(), [NOT, OPEN, 1, AND, 2, CLOSE]);
/// ```
impl Not for Expr {
    type Output = Expr;

    fn not(self) -> Expr {
        let mut numbers = self.binding(Level::Negation);
        numbers.insert(0, NOT);
        Expr { numbers, level: Level::Negation }
    }
}

/// [`Expr::and`].
impl BitAnd for Expr {
    type Output = Expr;

    fn bitand(self, other: Expr) -> Expr {
        self.and(other)
    }
}

/// [`Expr::or`].
impl BitOr for Expr {
    type Output = Expr;

    fn bitor(self, other: Expr) -> Expr {
        self.or(other)
    }
}

/// A term as a number of a question. One of 4,096 or more is none, and may not become a mark: what stands for it is neither.
fn number(term: u32) -> u16 {
    match u16::try_from(term) {
        Ok(number) if number < 4_096 => number,
        _ => u16::MAX,
    }
}

/// Two operands with a mark between them.
fn joined(mut first: Vec<u16>, mark: u16, second: Vec<u16>) -> Vec<u16> {
    first.push(mark);
    first.extend(second);
    first
}
