/// Fails to compile, when evaluated in a constant, unless `T` has this size.
pub const fn const_assert_mem_size<T>(bytes: usize) {
    assert!(size_of::<T>() == bytes);
}
