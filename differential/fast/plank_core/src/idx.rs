use std::fmt::Debug;

/// A number from 0 to `u32::MAX - 1` with a type of its own.
pub trait Idx: Copy + Ord + Debug + 'static {
    const ZERO: Self;
    const MAX_USIZE: usize = (u32::MAX - 1) as usize;

    fn new(value: u32) -> Self;
    fn get(self) -> u32;

    #[inline]
    fn idx(self) -> usize {
        self.get() as usize
    }
}

/// Declares index types. They hold their number plus one in a `NonZeroU32`, so that an
/// `Option` of one takes no more room: the size of a node counts on it.
#[macro_export]
macro_rules! newtype_index {
    ($($visibility:vis struct $name:ident;)*) => {$(
        #[derive(Clone, Copy, PartialEq, Eq, PartialOrd, Ord, Hash)]
        $visibility struct $name(::std::num::NonZeroU32);

        impl $crate::Idx for $name {
            const ZERO: Self = $name(::std::num::NonZeroU32::MIN);

            #[inline]
            fn new(value: u32) -> Self {
                match ::std::num::NonZeroU32::new(value.wrapping_add(1)) {
                    Some(number) => $name(number),
                    None => panic!("index too large"),
                }
            }

            #[inline]
            fn get(self) -> u32 {
                self.0.get() - 1
            }
        }

        impl ::std::fmt::Debug for $name {
            fn fmt(&self, f: &mut ::std::fmt::Formatter<'_>) -> ::std::fmt::Result {
                write!(f, "{}({})", stringify!($name), $crate::Idx::get(*self))
            }
        }

        impl ::std::ops::Add<u32> for $name {
            type Output = Self;

            #[inline]
            fn add(self, more: u32) -> Self {
                <Self as $crate::Idx>::new($crate::Idx::get(self) + more)
            }
        }

        impl ::std::ops::Sub<u32> for $name {
            type Output = Self;

            #[inline]
            fn sub(self, less: u32) -> Self {
                <Self as $crate::Idx>::new($crate::Idx::get(self) - less)
            }
        }

        impl ::std::ops::AddAssign<u32> for $name {
            #[inline]
            fn add_assign(&mut self, more: u32) {
                *self = *self + more;
            }
        }
    )*};
}
