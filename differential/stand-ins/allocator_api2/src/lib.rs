//! Stand-in for `allocator_api2`: its `Vec` with the global allocator is std's.

pub mod vec {
    use hooks::{Call, tell};
    use std::{ops::Deref, panic::Location};

    /// What the reference uses of std's. A watcher is told from where its length is asked for.
    pub struct Vec<T>(std::vec::Vec<T>);

    #[allow(clippy::new_without_default, clippy::len_without_is_empty)]
    impl<T: PartialEq + 'static> Vec<T> {
        pub fn new() -> Self {
            Vec(std::vec::Vec::new())
        }

        pub fn with_capacity(capacity: usize) -> Self {
            Vec(std::vec::Vec::with_capacity(capacity))
        }

        #[track_caller]
        pub fn len(&self) -> usize {
            tell(Call::Length(Location::caller()));
            self.0.len()
        }

        pub fn push(&mut self, item: T) {
            tell(Call::Appended(&item));
            self.0.push(item);
        }

        #[track_caller]
        pub fn truncate(&mut self, length: usize) {
            tell(Call::Cut(Location::caller()));
            self.0.truncate(length);
        }

        pub fn clear(&mut self) {
            self.0.clear();
        }

        pub fn dedup(&mut self) {
            self.0.dedup();
        }
    }

    impl<T> Deref for Vec<T> {
        type Target = [T];

        fn deref(&self) -> &[T] {
            &self.0
        }
    }
}
