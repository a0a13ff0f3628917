use crate::Idx;
use std::{marker::PhantomData, ops::Index};

/// Lists that are only added, numbered by `I` in the order in which they came; one behind the
/// other in one vector.
#[derive(Debug, Clone)]
pub struct ListOfLists<I, T> {
    items: Vec<T>,
    ends: Vec<u32>,
    index: PhantomData<I>,
}

impl<I: Idx, T> ListOfLists<I, T> {
    #[allow(clippy::new_without_default)]
    #[inline]
    pub fn new() -> Self {
        ListOfLists { items: Vec::new(), ends: Vec::new(), index: PhantomData }
    }

    /// A list of what is put behind all items.
    #[inline]
    pub fn push_with(&mut self, put: impl FnOnce(&mut Vec<T>)) -> I {
        let place = I::new(self.ends.len() as u32);
        put(&mut self.items);
        self.ends.push(self.items.len() as u32);
        place
    }
}

impl<I: Idx, T> Index<I> for ListOfLists<I, T> {
    type Output = [T];

    #[inline]
    fn index(&self, place: I) -> &[T] {
        let start = place.idx().checked_sub(1).map_or(0, |before| self.ends[before]);
        &self.items[start as usize..self.ends[place.idx()] as usize]
    }
}
