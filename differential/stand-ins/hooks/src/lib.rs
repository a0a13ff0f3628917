//! Tells a watcher what the reference asks of the stand-ins, in the order of its calls.

use std::{any::Any, cell::RefCell, panic::Location};

pub enum Call<'a> {
    /// An index was counted up with `+=`; it is given as it is now.
    Counted(&'a dyn Any),
    /// An item is about to be put behind the others of an `IndexVec`.
    Indexed { place: u32, item: &'a dyn Any },
    /// The item at this index is about to be changed.
    Changed(&'a dyn Any),
    /// The limbs of a number are about to be kept.
    Number(&'a [u32]),
    /// The bytes of a string are about to be kept.
    Bytes(&'a [u8]),
    /// A report is about to be kept.
    Report,
    /// An item is about to be put behind the others of a `Vec`.
    Appended(&'a dyn Any),
    /// The length of a `Vec` was asked for.
    Length(&'static Location<'static>),
    /// A `Vec` is about to be cut.
    Cut(&'static Location<'static>),
}

type Watcher = Box<dyn FnMut(Call<'_>)>;

thread_local! {
    static WATCHER: RefCell<Option<Watcher>> = const { RefCell::new(None) };
}

/// Takes the watcher away, also where the watched one panics.
struct Watching;

impl Drop for Watching {
    fn drop(&mut self) {
        WATCHER.set(None);
    }
}

/// Runs `watched`; on this thread its calls are told to `watcher`, which may end it by a panic.
pub fn watch<R>(watcher: impl FnMut(Call<'_>) + 'static, watched: impl FnOnce() -> R) -> R {
    WATCHER.set(Some(Box::new(watcher)));
    let _watching = Watching;
    watched()
}

#[inline]
pub fn tell(call: Call<'_>) {
    if cfg!(silent) {
        return;
    }
    WATCHER.with_borrow_mut(|watcher| {
        if let Some(watcher) = watcher {
            watcher(call);
        }
    });
}
