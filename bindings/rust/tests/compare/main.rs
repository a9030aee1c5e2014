//! Every operation beside a plain model, on random, boundary and damaged inputs: through the crate, and through the C names that it rests on.
//!
//! MASUVELIOR_QUICK=1 makes all rounds shorter, for slow runs as under valgrind.
mod arguments;
mod ask;
mod booleans;
mod compare;
mod damage;
mod expressions;
mod faults;
mod first_places;
mod found;
mod header;
mod library;
mod orders;
mod places;
mod print;
mod questions;
mod random;
mod raw;
mod readings;
mod repeats;
mod scores;
mod sets;
mod sweep;
mod threads;
mod top_k;
mod typed;
mod weighted;
mod writer;

/// `bindings/c/masuvelior.h`, as the crate declares it.
#[path = "../../src/sys.rs"]
mod sys;

/// Whether this run is to be short.
fn quick() -> bool {
    std::env::var_os("MASUVELIOR_QUICK").is_some()
}

/// So many rounds, or a twentieth of them in a short run.
fn rounds(usual: usize) -> usize {
    if quick() {
        return usual / 20 + 1;
    }
    usual
}
