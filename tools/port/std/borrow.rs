//! Texts and slices that are borrowed or owned.
use crate::alloc::Global;
use crate::collections::{String, Vec};
use std::ops::Deref;

#[derive(Debug, Clone, PartialEq, Eq)]
pub enum CowSlice<'a, T, A = Global> {
    Borrowed(&'a [T]),
    Owned(Vec<T, A>),
}
impl<T, A> Deref for CowSlice<'_, T, A> {
    type Target = [T];
    fn deref(&self) -> &[T] {
        match self {
            CowSlice::Borrowed(items) => items,
            CowSlice::Owned(items) => items,
        }
    }
}
impl<T: Clone, A> CowSlice<'_, T, A> {
    pub fn into_owned(self, alloc: A) -> Result<Vec<T, A>, crate::alloc::AllocError> {
        match self {
            CowSlice::Borrowed(items) => Vec::from_slice(alloc, items),
            CowSlice::Owned(items) => Ok(items),
        }
    }
}
impl<T, A> CowSlice<'_, T, A> {
    pub fn as_slice(&self) -> &[T] {
        self
    }
}

#[derive(Debug, Clone, PartialEq, Eq)]
pub enum CowStr<'a, A = Global> {
    Borrowed(&'a str),
    Owned(String<A>),
}
impl<A> Deref for CowStr<'_, A> {
    type Target = str;
    fn deref(&self) -> &str {
        match self {
            CowStr::Borrowed(text) => text,
            CowStr::Owned(text) => text.as_str(),
        }
    }
}
impl<A> CowStr<'_, A> {
    pub fn as_str(&self) -> &str {
        self
    }
}
impl<A> crate::convert::AsStr for CowStr<'_, A> {
    fn as_str(&self) -> &str {
        self
    }
}
