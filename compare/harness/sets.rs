//! The crate's sets of every kind as one type.

use crate::bit_set::DenseBitSet;
use crate::bit_set::access;
use crate::calls::{Change, Combination, Kind, Table};

#[derive(Clone, PartialEq)]
pub enum AnySet {
    Dense(DenseBitSet<usize>),
}

use AnySet::Dense;

/// What the crate says of a change.
pub enum Said {
    /// Whether anything changed.
    Flag(bool),
    /// The call returns nothing.
    Nothing,
    /// The crate has no such call, and nothing was done.
    Lacking,
}

impl AnySet {
    pub fn new(kind: Kind, domain: usize, full: bool) -> AnySet {
        match (kind, full) {
            (Kind::Dense, false) => Dense(DenseBitSet::new_empty(domain)),
            (Kind::Dense, true) => Dense(DenseBitSet::new_filled(domain)),
        }
    }

    pub fn domain(&self) -> usize {
        match self {
            Dense(set) => set.domain_size(),
        }
    }

    /// The members, in the crate's own order.
    pub fn members(&self) -> Vec<usize> {
        match self {
            Dense(set) => set.iter().collect(),
        }
    }

    pub fn count(&self) -> usize {
        match self {
            Dense(set) => set.count(),
        }
    }

    pub fn is_empty(&self) -> bool {
        match self {
            Dense(set) => set.is_empty(),
        }
    }

    pub fn contains(&self, index: usize) -> bool {
        match self {
            Dense(set) => set.contains(index),
        }
    }

    pub fn contains_loose(&self, index: usize) -> bool {
        match self {
            Dense(set) => set.contains_loose(index),
        }
    }

    pub fn superset(&self, other: &AnySet) -> bool {
        match (self, other) {
            (Dense(set), Dense(other)) => set.superset(other),
        }
    }

    /// The crate's own search, which takes no index past the domain. Nothing where it has none.
    pub fn first_at_or_after(&self, index: usize) -> Option<Option<usize>> {
        match self {
            Dense(set) => (index < set.domain_size()).then(|| set.first_set_at_or_after(index)),
        }
    }

    pub fn change(&mut self, change: Change) -> Said {
        match self {
            Dense(set) => match change {
                Change::Insert(index) => Said::Flag(set.insert(index)),
                Change::Remove(index) => Said::Flag(set.remove(index)),
                Change::Clear => {
                    set.clear();
                    Said::Nothing
                }
                Change::InsertAll => {
                    set.insert_all();
                    Said::Nothing
                }
            },
        }
    }

    pub fn combine(&mut self, combination: Combination, other: &AnySet) -> Said {
        match (self, other) {
            (Dense(set), Dense(other)) => match combination {
                Combination::Union => Said::Flag(set.union(other)),
                Combination::Intersect => Said::Flag(set.intersect(other)),
                Combination::Subtract => Said::Flag(set.subtract(other)),
                Combination::UnionNot => {
                    set.union_not(other);
                    Said::Nothing
                }
                Combination::CloneFrom => {
                    set.clone_from(other);
                    Said::Nothing
                }
                Combination::Table(_) => Said::Lacking,
            },
        }
    }

    /// Makes each index a member exactly when the table has 1 for it, bit by bit.
    pub fn apply(&mut self, table: Table, other: &AnySet) {
        for index in 0..self.domain() {
            let place = 2 * usize::from(self.contains(index)) + usize::from(other.contains(index));
            self.change(if table[place] {
                Change::Insert(index)
            } else {
                Change::Remove(index)
            });
        }
    }

    /// The numbers that the set is stored as, its domain first.
    pub fn picture(&self) -> Vec<u64> {
        match self {
            Dense(set) => [&[set.domain_size() as u64], access::words(set)].concat(),
        }
    }
}
