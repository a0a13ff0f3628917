//! Fast stand-in for `allocator_api2`: its `Vec` with the global allocator is std's.

pub mod vec {
    pub use std::vec::Vec;
}
