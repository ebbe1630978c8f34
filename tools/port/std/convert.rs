//! Conversions to texts and slices.
pub use std::convert::*;

pub trait AsStr {
    fn as_str(&self) -> &str;
}
impl AsStr for str {
    fn as_str(&self) -> &str {
        self
    }
}
impl<S: AsStr + ?Sized> AsStr for &S {
    fn as_str(&self) -> &str {
        (**self).as_str()
    }
}
impl<A> AsStr for crate::collections::String<A> {
    fn as_str(&self) -> &str {
        crate::collections::String::as_str(self)
    }
}

pub trait AsSlice<T> {
    fn as_slice(&self) -> &[T];
}
impl<T> AsSlice<T> for [T] {
    fn as_slice(&self) -> &[T] {
        self
    }
}
impl<T, const N: usize> AsSlice<T> for [T; N] {
    fn as_slice(&self) -> &[T] {
        &self[..]
    }
}
impl<T, A> AsSlice<T> for crate::collections::Vec<T, A> {
    fn as_slice(&self) -> &[T] {
        crate::collections::Vec::as_slice(self)
    }
}
impl AsSlice<u8> for str {
    fn as_slice(&self) -> &[u8] {
        self.as_bytes()
    }
}
impl<A> AsSlice<u8> for crate::collections::String<A> {
    fn as_slice(&self) -> &[u8] {
        crate::collections::String::as_str(self).as_bytes()
    }
}
impl<T, S: AsSlice<T> + ?Sized> AsSlice<T> for &S {
    fn as_slice(&self) -> &[T] {
        (**self).as_slice()
    }
}
