//! What the crate's two files take from the rest of their crate, as little of it as they need.

use crate::Idx;
use std::marker::PhantomData;

macro_rules! static_assert_size {
    ($ty:ty, $size:expr) => {
        const _: [(); $size] = [(); ::std::mem::size_of::<$ty>()];
    };
}

pub(crate) use static_assert_size;

/// A vector that is indexed by an index type.
#[derive(Clone, Debug)]
pub struct IndexVec<I, T> {
    items: Vec<T>,
    marker: PhantomData<I>,
}

#[allow(dead_code)]
impl<I: Idx, T> IndexVec<I, T> {
    pub fn new() -> Self {
        IndexVec {
            items: Vec::new(),
            marker: PhantomData,
        }
    }

    pub fn get(&self, index: I) -> Option<&T> {
        self.items.get(index.index())
    }

    pub fn get_mut(&mut self, index: I) -> Option<&mut T> {
        self.items.get_mut(index.index())
    }

    pub fn indices(&self) -> impl DoubleEndedIterator<Item = I> + use<I, T> {
        (0..self.items.len()).map(I::new)
    }

    pub fn pick2_mut(&mut self, a: I, b: I) -> (&mut T, &mut T) {
        let (a, b) = (a.index(), b.index());
        assert!(a != b);
        if a < b {
            let (low, high) = self.items.split_at_mut(b);
            (&mut low[a], &mut high[0])
        } else {
            let (low, high) = self.items.split_at_mut(a);
            (&mut high[0], &mut low[b])
        }
    }
}

#[allow(dead_code)]
impl<I: Idx, T> IndexVec<I, Option<T>> {
    pub fn get_or_insert_with(&mut self, index: I, value: impl FnOnce() -> T) -> &mut T {
        let index = index.index();
        if self.items.len() <= index {
            self.items.resize_with(index + 1, || None);
        }
        self.items[index].get_or_insert_with(value)
    }
}
