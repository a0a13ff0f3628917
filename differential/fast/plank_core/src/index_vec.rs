use crate::Idx;
use std::{
    marker::PhantomData,
    ops::{Deref, Index, IndexMut},
};

/// A vector whose places are numbered by `I`.
#[derive(Debug, Clone)]
pub struct IndexVec<I, T> {
    items: Vec<T>,
    index: PhantomData<I>,
}

impl<I: Idx, T> IndexVec<I, T> {
    #[inline]
    pub fn with_capacity(capacity: usize) -> Self {
        IndexVec { items: Vec::with_capacity(capacity), index: PhantomData }
    }

    #[inline]
    pub fn push(&mut self, item: T) -> I {
        let place = self.len_idx();
        self.items.push(item);
        place
    }

    #[inline]
    pub fn len_idx(&self) -> I {
        I::new(self.items.len() as u32)
    }
}

impl<I, T> Deref for IndexVec<I, T> {
    type Target = [T];

    #[inline]
    fn deref(&self) -> &[T] {
        &self.items
    }
}

impl<I: Idx, T> Index<I> for IndexVec<I, T> {
    type Output = T;

    #[inline]
    fn index(&self, place: I) -> &T {
        &self.items[place.idx()]
    }
}

impl<I: Idx, T> IndexMut<I> for IndexVec<I, T> {
    #[inline]
    fn index_mut(&mut self, place: I) -> &mut T {
        &mut self.items[place.idx()]
    }
}
