//! Wrong lengths, and buffers lent with them.

use super::random::Random;
use crate::engine::Lend;

/// A length other than the stated one: none, one short, one long, half, double,
/// or some other.
pub fn wrong_length(random: &mut Random, stated: usize) -> usize {
    let other = random.size(0, 2 * stated);
    let lengths = [0, stated - 1, stated + 1, stated / 2, 2 * stated, other];
    match random.pick(&lengths) {
        right if right == stated => stated - 1,
        wrong => wrong,
    }
}

/// A buffer of this stated length, lent with a wrong one.
pub fn wrong_lend(random: &mut Random, stated: usize) -> Lend {
    let length = wrong_length(random, stated);
    if length < stated {
        return Lend::Cut { to: length };
    }
    let added = length - stated;
    let bytes = if random.once_in(2) {
        vec![0; added]
    } else {
        random.bytes(added)
    };
    Lend::Added { bytes }
}
