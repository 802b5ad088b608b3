//! Floor and square root.
use crate::raw;
use crate::Refusal;

/// The floor as a whole number, so that of -0.0 is 0.
///
/// # Errors
///
/// 4 for a NaN, an infinity or anything beyond 2^40 from zero.
///
/// ```
/// assert_eq!(talemiku::floor(-0.5), Ok(-1));
/// assert!(talemiku::floor(2e12).is_err());
/// ```
pub fn floor(x: f64) -> Result<i64, Refusal> {
    let answer = raw::floor(x);
    Refusal::unless(answer.refusal, answer.value)
}

/// The correctly rounded square root of IEEE 754. A NaN comes back as 7FF8000000000000.
///
/// ```
/// assert_eq!(talemiku::root(0.25), 0.5);
/// assert_eq!(talemiku::root(-1.0).to_bits(), 0x7ff8_0000_0000_0000);
/// ```
#[must_use]
pub fn root(x: f64) -> f64 {
    f64::from_bits(raw::root(x.to_bits()))
}
