//! The parts of a set that the crate keeps to itself.

use super::DenseBitSet;

pub fn words<T>(set: &DenseBitSet<T>) -> &[u64] {
    &set.words
}
