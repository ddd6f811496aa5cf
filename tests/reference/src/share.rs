//! How many of the pairs that are not ordered commute, in thousandths.

use crate::races::{races, Counts};
use crate::refusal::Refusal;

/// 1000 times commuting, divided by commuting + listed.
#[derive(Clone, Copy, Debug, Default, PartialEq, Eq)]
pub struct Share {
    /// How often the divisor goes into 1000 times commuting.
    pub quotient: usize,
    /// What remains, below the divisor.
    pub remainder: usize,
    /// The pairs that are not ordered: commuting + listed.
    pub divisor: usize,
}

/// The share of a trace. All three numbers are 0 where no pair is unordered.
pub fn share(trace: &[u8], delay: u32) -> Result<Share, Refusal<'_>> {
    let (Counts { commuting, listed, .. }, _) = races(trace, delay)?;
    let (dividend, divisor) = (1000 * commuting, commuting + listed);
    if divisor == 0 {
        return Ok(Share::default());
    }
    Ok(Share { quotient: dividend / divisor, remainder: dividend % divisor, divisor })
}
