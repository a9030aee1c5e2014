//! Masuvelior from Rust: an archive of document numbers, its writer and reader, and the questions asked of it.
//!
//! The code below this crate is proved: each answer is the one that the plain list of entries gives, for every input. This crate only
//! hands slices over. What the proofs assume of a caller is kept by Rust's borrows: [`Archive::open`] checks the bytes once and borrows
//! them, so nobody can change them while questions are asked, and no question needs a second check.
//!
//! Words: an archive has n entries, N documents and W terms, all numbered from 0. An entry is the number of the document in which a term
//! occurs; the entries of term 0 come first. `docs/FORMAT.md` in the repository has all of it in print.
//!
//! Costs are given in ranks: one counts ones in a row of bits, by one sample and at most 64 bytes of the row. h is the number of rows, the
//! smallest with 2^h at least N, so at most 12. `docs/BENCHMARKS.md` has the times.
//!
//! ```
//! use masuvelior::Over::{Entries, Terms};
//! use masuvelior::{write, Archive, Ended, Expr};
//!
//! // Eight entries: three under term 0, none under term 1, five under term 2.
//! let bytes = write(&[3, 1, 0, 3, 2, 1, 3, 0], &[3, 0, 5], 4)?;
//! let archive = Archive::open(&bytes)?;
//!
//! assert_eq!(archive.rank(3, 8)?, 3); // document 3 occurs three times
//! assert_eq!(archive.rank_set(&[0, 3], 8)?, 5); // documents 0 and 3 together, five times
//! assert_eq!(archive.conjunction(&[0, 2])?, [(0, 2), (1, 2), (3, 3)]); // documents under both terms
//!
//! // The two most frequent documents of all terms, each with its count and the place of its first entry. Nine nodes may be opened, three are.
//! let (documents, ended) = archive.greedy(Terms(0..=2), 2, 9)?;
//! assert_eq!(documents, [(3, 3, 0), (0, 2, 2)]);
//! assert_eq!(ended, Ended::Done { openings: 3 });
//!
//! assert_eq!(archive.list(Entries(3..5))?, [(2, 1, 4), (3, 1, 3)]); // places count from entry 0
//!
//! // Rare terms weigh more: term 0 is in three of the four documents, term 2 in each of them, so their weights are 1 and 0.
//! let (documents, ended) = archive.weighted(&[0, 2], 4, 3)?;
//! assert_eq!(documents, [(0, 1), (1, 1), (3, 1), (2, 0)]); // each with its score
//! assert_eq!(ended, Ended::Done { openings: 3 });
//! assert_eq!(archive.rarest_first(&[2, 0, 2])?, [0, 2]); // in this order scores are added up
//!
//! // Documents under term 2 and not under term 0.
//! let question = Expr::term(2) & !Expr::term(0);
//! assert_eq!(archive.boolean(question.numbers())?, [2]);
//! # Ok::<(), masuvelior::Refusal>(())
//! ```
#![warn(missing_docs)]
#![deny(unsafe_op_in_unsafe_fn)]

mod archive;
mod argument;
mod boolean;
mod expr;
mod found;
pub mod marks;
mod per_mille;
mod questions;
mod range;
mod refusal;
mod sys;
mod top_k;
mod weighted;
mod write;

pub use archive::Archive;
pub use argument::Argument;
pub use expr::Expr;
pub use found::{Counted, Matched, Scored};
pub use per_mille::per_mille;
pub use range::Over;
pub use refusal::Refusal;
pub use top_k::Ended;
pub use write::{archive_length, write, write_into};
