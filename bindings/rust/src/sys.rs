//! `bindings/c/masuvelior.h` in Rust, name for name. What the caller keeps is the header's, under these names in the SAFETY comments:
//!
//! - POINTERS: "a pointer is not NULL, also that of a slice of length 0, and what it leads to is there and aligned for its type";
//! - WRITTEN: "what a function may write overlaps nothing else that is handed to it, and nobody else reads or writes it during the call";
//! - CONST: "nobody writes a slice that is lent as `const` during the call";
//! - OPENED: "masuvelior_open answered 0 for these very bytes and this length, and they are unchanged since".
//!
//! References and slices of Rust, also empty ones, keep POINTERS; `&mut` keeps WRITTEN; `&` keeps CONST.

/// How many terms may be given, and so how many an order has room for.
pub const MASUVELIOR_MAX_CHOSEN: usize = 8;

macro_rules! declare {
    ($($name:ident ( $($argument:ident : $type:ty),* );)*) => {
        // The checked questions are declared too: the tests ask them beside those of an opened archive.
        #[allow(dead_code)]
        extern "C" {
            $(pub fn $name($($argument: $type),*) -> u32;)*
        }
    };
}

// The archive.
declare! {
    masuvelior_open(archive: *const u8, archive_length: usize, n: *mut u32, documents: *mut u32, terms: *mut u32);
    masuvelior_archive_length(n: u32, documents: u32, terms: u32, length: *mut usize);
    masuvelior_write(entries: *const u32, n: usize, lengths: *const u32, terms: usize, documents: u32, target: *mut u8, target_length: usize, length: *mut usize);
    masuvelior_read(archive: *const u8, archive_length: usize, entries: *mut u32, entries_length: usize, lengths: *mut u32, lengths_length: usize, n: *mut u32, documents: *mut u32, terms: *mut u32);
    masuvelior_per_mille(count: u32, size: u32, rate: *mut u32);
}

// Questions that check the archive first.
declare! {
    masuvelior_access(archive: *const u8, archive_length: usize, place: u32, document: *mut u32);
    masuvelior_rank(archive: *const u8, archive_length: usize, document: u32, place: u32, count: *mut u32);
    masuvelior_rank_set(archive: *const u8, archive_length: usize, set: *const u32, set_length: usize, place: u32, count: *mut u32);
    masuvelior_select(archive: *const u8, archive_length: usize, document: u32, j: u32, place: *mut u32);
    masuvelior_quantile(archive: *const u8, archive_length: usize, a: u32, b: u32, r: u32, document: *mut u32);
    masuvelior_quantile_terms(archive: *const u8, archive_length: usize, first: u32, last: u32, r: u32, document: *mut u32);
    masuvelior_list(archive: *const u8, archive_length: usize, a: u32, b: u32, answers: *mut u32, answers_length: usize, listed: *mut u32);
    masuvelior_list_terms(archive: *const u8, archive_length: usize, first: u32, last: u32, answers: *mut u32, answers_length: usize, listed: *mut u32);
    masuvelior_conjunction(archive: *const u8, archive_length: usize, chosen: *const u32, chosen_length: usize, answers: *mut u32, answers_length: usize, listed: *mut u32);
    masuvelior_boolean(archive: *const u8, archive_length: usize, question: *const u16, question_length: usize, answers: *mut u32, answers_length: usize, listed: *mut u32);
    masuvelior_range_of_terms(archive: *const u8, archive_length: usize, first: u32, last: u32, from: *mut u32, to: *mut u32);
    masuvelior_rarest_first(archive: *const u8, archive_length: usize, chosen: *const u32, chosen_length: usize, order: *mut [u32; MASUVELIOR_MAX_CHOSEN], size: *mut u32);
    masuvelior_greedy_entries(archive: *const u8, archive_length: usize, a: u32, b: u32, k: u32, allowance: u32, answers: *mut u32, answers_length: usize, work: *mut u32, work_length: usize, listed: *mut u32, spent: *mut u32, number: *mut u32);
    masuvelior_greedy_terms(archive: *const u8, archive_length: usize, first: u32, last: u32, k: u32, allowance: u32, answers: *mut u32, answers_length: usize, work: *mut u32, work_length: usize, listed: *mut u32, spent: *mut u32, number: *mut u32);
    masuvelior_probing_entries(archive: *const u8, archive_length: usize, a: u32, b: u32, k: u32, answers: *mut u32, answers_length: usize, work: *mut u32, work_length: usize, listed: *mut u32);
    masuvelior_probing_terms(archive: *const u8, archive_length: usize, first: u32, last: u32, k: u32, answers: *mut u32, answers_length: usize, work: *mut u32, work_length: usize, listed: *mut u32);
    masuvelior_weighted(archive: *const u8, archive_length: usize, chosen: *const u32, chosen_length: usize, k: u32, allowance: u32, answers: *mut u32, answers_length: usize, work: *mut u32, work_length: usize, listed: *mut u32, spent: *mut u32, number: *mut u32);
}

// The same for an archive that was opened before, without the check: the caller keeps OPENED.
declare! {
    masuvelior_opened_read(archive: *const u8, archive_length: usize, entries: *mut u32, entries_length: usize, lengths: *mut u32, lengths_length: usize, n: *mut u32, documents: *mut u32, terms: *mut u32);
    masuvelior_opened_access(archive: *const u8, archive_length: usize, place: u32, document: *mut u32);
    masuvelior_opened_rank(archive: *const u8, archive_length: usize, document: u32, place: u32, count: *mut u32);
    masuvelior_opened_rank_set(archive: *const u8, archive_length: usize, set: *const u32, set_length: usize, place: u32, count: *mut u32);
    masuvelior_opened_select(archive: *const u8, archive_length: usize, document: u32, j: u32, place: *mut u32);
    masuvelior_opened_quantile(archive: *const u8, archive_length: usize, a: u32, b: u32, r: u32, document: *mut u32);
    masuvelior_opened_quantile_terms(archive: *const u8, archive_length: usize, first: u32, last: u32, r: u32, document: *mut u32);
    masuvelior_opened_list(archive: *const u8, archive_length: usize, a: u32, b: u32, answers: *mut u32, answers_length: usize, listed: *mut u32);
    masuvelior_opened_list_terms(archive: *const u8, archive_length: usize, first: u32, last: u32, answers: *mut u32, answers_length: usize, listed: *mut u32);
    masuvelior_opened_conjunction(archive: *const u8, archive_length: usize, chosen: *const u32, chosen_length: usize, answers: *mut u32, answers_length: usize, listed: *mut u32);
    masuvelior_opened_boolean(archive: *const u8, archive_length: usize, question: *const u16, question_length: usize, answers: *mut u32, answers_length: usize, listed: *mut u32);
    masuvelior_opened_range_of_terms(archive: *const u8, archive_length: usize, first: u32, last: u32, from: *mut u32, to: *mut u32);
    masuvelior_opened_rarest_first(archive: *const u8, archive_length: usize, chosen: *const u32, chosen_length: usize, order: *mut [u32; MASUVELIOR_MAX_CHOSEN], size: *mut u32);
    masuvelior_opened_greedy_entries(archive: *const u8, archive_length: usize, a: u32, b: u32, k: u32, allowance: u32, answers: *mut u32, answers_length: usize, work: *mut u32, work_length: usize, listed: *mut u32, spent: *mut u32, number: *mut u32);
    masuvelior_opened_greedy_terms(archive: *const u8, archive_length: usize, first: u32, last: u32, k: u32, allowance: u32, answers: *mut u32, answers_length: usize, work: *mut u32, work_length: usize, listed: *mut u32, spent: *mut u32, number: *mut u32);
    masuvelior_opened_probing_entries(archive: *const u8, archive_length: usize, a: u32, b: u32, k: u32, answers: *mut u32, answers_length: usize, work: *mut u32, work_length: usize, listed: *mut u32);
    masuvelior_opened_probing_terms(archive: *const u8, archive_length: usize, first: u32, last: u32, k: u32, answers: *mut u32, answers_length: usize, work: *mut u32, work_length: usize, listed: *mut u32);
    masuvelior_opened_weighted(archive: *const u8, archive_length: usize, chosen: *const u32, chosen_length: usize, k: u32, allowance: u32, answers: *mut u32, answers_length: usize, work: *mut u32, work_length: usize, listed: *mut u32, spent: *mut u32, number: *mut u32);
}
