//! What every file of a crate sees: names that Rattle's prelude has, and methods that Rust's std lacks, has only in
//! later versions, or lets return no error for memory.
pub use crate::alloc::{AllocError, AllocFailed, Global};
pub use crate::boxed::Box;
pub use crate::collections::{String, Vec};
pub use crate::convert::{AsSlice, AsStr};
pub use crate::io::{Input as _, WriteFmt};
#[cfg(unix)]
pub use crate::machine::HostRuntime;
pub use crate::sync::Wait as _;
pub use std::fmt::Write as _;
pub use std::str;

/// A bound that every type meets.
pub trait Drop {}
impl<T: ?Sized> Drop for T {}

pub trait FallibleClone: Sized {
    fn fallible_clone(&self) -> Result<Self, AllocError>;
}
impl<T: Clone> FallibleClone for T {
    fn fallible_clone(&self) -> Result<T, AllocError> {
        Ok(self.clone())
    }
}

pub trait Signed<S> {
    fn cast_signed(self) -> S;
}
pub trait Unsigned<U> {
    fn cast_unsigned(self) -> U;
}
macro_rules! casts {
    ($($unsigned:ty, $signed:ty;)*) => {$(
        impl Signed<$signed> for $unsigned {
            fn cast_signed(self) -> $signed { self as $signed }
        }
        impl Unsigned<$unsigned> for $signed {
            fn cast_unsigned(self) -> $unsigned { self as $unsigned }
        }
    )*};
}
casts! { u8, i8; u16, i16; u32, i32; u64, i64; }

pub trait Splits<T> {
    fn split_at_checked(&self, at: usize) -> Option<(&[T], &[T])>;
    fn split_first_chunk<const N: usize>(&self) -> Option<(&[T; N], &[T])>;
    fn split_last_chunk<const N: usize>(&self) -> Option<(&[T], &[T; N])>;
    fn first_chunk<const N: usize>(&self) -> Option<&[T; N]>;
}
impl<T> Splits<T> for [T] {
    fn split_at_checked(&self, at: usize) -> Option<(&[T], &[T])> {
        (at <= self.len()).then(|| self.split_at(at))
    }
    fn split_first_chunk<const N: usize>(&self) -> Option<(&[T; N], &[T])> {
        let (first, rest) = self.split_at_checked(N)?;
        Some((first.try_into().ok()?, rest))
    }
    fn split_last_chunk<const N: usize>(&self) -> Option<(&[T], &[T; N])> {
        let (first, rest) = self.split_at_checked(self.len().checked_sub(N)?)?;
        Some((first, rest.try_into().ok()?))
    }
    fn first_chunk<const N: usize>(&self) -> Option<&[T; N]> {
        self.get(..N)?.try_into().ok()
    }
}
/// What is collected, in memory of an allocator.
pub trait CollectIn: Iterator + Sized {
    fn collect_in<A, C: FromIn<A, Self::Item>>(self, alloc: A) -> Result<C, AllocError> {
        C::from_in(alloc, self)
    }
}
impl<I: Iterator> CollectIn for I {}
pub trait FromIn<A, T>: Sized {
    fn from_in<I: Iterator<Item = T>>(alloc: A, items: I) -> Result<Self, AllocError>;
}
impl<A, T> FromIn<A, T> for Vec<T, A> {
    fn from_in<I: Iterator<Item = T>>(alloc: A, items: I) -> Result<Self, AllocError> {
        Ok(Vec::from_std(alloc, items.collect()))
    }
}
impl<A> FromIn<A, char> for String<A> {
    fn from_in<I: Iterator<Item = char>>(alloc: A, items: I) -> Result<Self, AllocError> {
        Ok(String::from_std(alloc, items.collect()))
    }
}
pub trait OptionMore<T> {
    fn is_none_or<F: FnOnce(T) -> bool>(self, holds: F) -> bool;
    fn is_some_where<F: FnOnce(T) -> bool>(self, holds: F) -> bool;
}
impl<T> OptionMore<T> for Option<T> {
    fn is_none_or<F: FnOnce(T) -> bool>(self, holds: F) -> bool {
        self.map_or(true, holds)
    }
    fn is_some_where<F: FnOnce(T) -> bool>(self, holds: F) -> bool {
        self.map_or(false, holds)
    }
}
pub trait StableSort<T> {
    fn sort_by_in<F: FnMut(&T, &T) -> std::cmp::Ordering>(&mut self, order: F) -> Result<(), AllocError>;
}
impl<T> StableSort<T> for [T] {
    fn sort_by_in<F: FnMut(&T, &T) -> std::cmp::Ordering>(&mut self, order: F) -> Result<(), AllocError> {
        Ok(self.sort_by(order))
    }
}
pub trait MutArray<T> {
    fn as_mut_array<const N: usize>(&mut self) -> Option<&mut [T; N]>;
}
impl<T> MutArray<T> for [T] {
    fn as_mut_array<const N: usize>(&mut self) -> Option<&mut [T; N]> {
        self.try_into().ok()
    }
}
pub trait Logarithm {
    fn ilog2(self) -> u32;
}
impl Logarithm for u64 {
    fn ilog2(self) -> u32 {
        assert!(self != 0);
        63 - self.leading_zeros()
    }
}
pub trait ReplaceIn {
    fn replace_in<A>(&self, alloc: A, from: &str, to: &str) -> Result<String<A>, AllocError>;
}
impl ReplaceIn for str {
    fn replace_in<A>(&self, alloc: A, from: &str, to: &str) -> Result<String<A>, AllocError> {
        Ok(String::from_std(alloc, self.replace(from, to)))
    }
}
pub trait CheckedText {
    fn split_at_checked(&self, at: usize) -> Option<(&str, &str)>;
}
impl CheckedText for str {
    fn split_at_checked(&self, at: usize) -> Option<(&str, &str)> {
        self.is_char_boundary(at).then(|| self.split_at(at))
    }
}
