//! The marks in a question with and, or, not. A number below 4,096 is a term, and all others are neither.
//!
//! ```
//! use masuvelior::marks::{AND, NOT};
//! use masuvelior::{write, Archive};
//!
//! let bytes = write(&[3, 1, 0, 3, 2, 1, 3, 0], &[3, 0, 5], 4)?;
//! assert_eq!(Archive::open(&bytes)?.boolean(&[2, AND, NOT, 0])?, [2]);
//! # Ok::<(), masuvelior::Refusal>(())
//! ```

/// 'And': the documents that match what is on both sides of it.
pub const AND: u16 = 60_000;
/// 'Or': the documents that match what is on one of its sides, or on both.
pub const OR: u16 = 60_001;
/// 'Not': all documents of the archive but those that match what follows.
pub const NOT: u16 = 60_002;
/// The bracket that opens.
pub const OPEN: u16 = 60_003;
/// The bracket that closes.
pub const CLOSE: u16 = 60_004;
