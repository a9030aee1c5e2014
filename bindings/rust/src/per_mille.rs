//! The rate, which needs no archive.
use crate::argument::Argument;
use crate::refusal::{outcome, Refusal};
use crate::sys;

/// `count` × 1,000 / `size` to the nearest whole number, an exact half to the even one. Cost: one division.
///
/// So it is 0 to 1,000; 0 does not say that `count` is 0, nor 1,000 that it is `size`.
///
/// ```
/// use masuvelior::per_mille;
///
/// assert_eq!(per_mille(3, 16), Ok(188)); // 187 and a half
/// assert_eq!(per_mille(5, 2_000), Ok(2)); // 2 and a half
/// assert_eq!(per_mille(1, 3), Ok(333));
/// assert_eq!(per_mille(1_999, 2_000), Ok(1_000)); // 999 and a half
/// ```
///
/// # Errors
/// 11 where `size` is 0 or `count` is above it.
pub fn per_mille(count: u32, size: u32) -> Result<u32, Refusal> {
    let mut rate = 0;
    // SAFETY: POINTERS and WRITTEN by the reference to `rate`, which is our own.
    let answer = unsafe { sys::masuvelior_per_mille(count, size, &mut rate) };
    outcome(answer, rate).map_err(|refusal| refusal.about(|| if size == 0 { Argument::Size } else { Argument::Count }))
}
