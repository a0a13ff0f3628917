use crate::Idx;
use std::{marker::PhantomData, ops::Index};

/// Lists that are only added, numbered by `I` in the order in which they came.
#[derive(Debug, Clone)]
pub struct ListOfLists<I, T> {
    lists: Vec<Vec<T>>,
    index: PhantomData<I>,
}

impl<I: Idx, T> ListOfLists<I, T> {
    #[allow(clippy::new_without_default)]
    pub fn new() -> Self {
        ListOfLists { lists: Vec::new(), index: PhantomData }
    }

    pub fn push(&mut self, list: Vec<T>) -> I {
        let place = I::new(self.lists.len() as u32);
        self.lists.push(list);
        place
    }
}

impl<I: Idx, T> Index<I> for ListOfLists<I, T> {
    type Output = [T];

    fn index(&self, place: I) -> &[T] {
        &self.lists[place.idx()]
    }
}
