//! Collections and texts whose calls may fail for memory, over those of Rust's std. Nothing fails here.
use crate::alloc::{AllocError, AllocFailed, Global};
use std::hash::Hash;
use std::marker::PhantomData;
use std::ops::{Deref, DerefMut};

pub struct Vec<T, A = Global>(std::vec::Vec<T>, PhantomData<A>);

impl<T: Clone, A> Clone for Vec<T, A> {
    fn clone(&self) -> Self {
        Vec(self.0.clone(), PhantomData)
    }
}
impl<T: std::fmt::Debug, A> std::fmt::Debug for Vec<T, A> {
    fn fmt(&self, f: &mut std::fmt::Formatter<'_>) -> std::fmt::Result {
        self.0.fmt(f)
    }
}
impl<T: PartialEq, A> PartialEq for Vec<T, A> {
    fn eq(&self, other: &Self) -> bool {
        self.0 == other.0
    }
}
impl<T: Eq, A> Eq for Vec<T, A> {}
impl<T: Hash, A> Hash for Vec<T, A> {
    fn hash<H: std::hash::Hasher>(&self, state: &mut H) {
        self.0.hash(state)
    }
}
impl<T: PartialOrd, A> PartialOrd for Vec<T, A> {
    fn partial_cmp(&self, other: &Self) -> Option<std::cmp::Ordering> {
        self.0.partial_cmp(&other.0)
    }
}
impl<T: Ord, A> Ord for Vec<T, A> {
    fn cmp(&self, other: &Self) -> std::cmp::Ordering {
        self.0.cmp(&other.0)
    }
}

impl<T, A> Vec<T, A> {
    #[inline]
    pub fn new(_: A) -> Self {
        Vec(std::vec::Vec::new(), PhantomData)
    }
    pub fn with_capacity(_: A, room: usize) -> Result<Self, AllocError> {
        Ok(Vec(std::vec::Vec::with_capacity(room), PhantomData))
    }
    pub fn from_std(_: A, items: std::vec::Vec<T>) -> Self {
        Vec(items, PhantomData)
    }
    #[inline]
    pub fn push(&mut self, item: T) -> Result<(), AllocFailed<T>> {
        Ok(self.0.push(item))
    }
    /// Pushes into memory that an earlier call reserved.
    #[inline]
    pub fn push_reserved(&mut self, item: T) {
        self.0.push(item)
    }
    pub fn reserve(&mut self, more: usize) -> Result<(), AllocError> {
        Ok(self.0.reserve(more))
    }
    pub fn insert(&mut self, at: usize, item: T) -> Result<(), AllocFailed<T>> {
        Ok(self.0.insert(at, item))
    }
    pub fn remove(&mut self, at: usize) -> T {
        self.0.remove(at)
    }
    pub fn swap_remove(&mut self, at: usize) -> T {
        self.0.swap_remove(at)
    }
    pub fn append(&mut self, other: &mut Self) -> Result<(), AllocError> {
        Ok(self.0.append(&mut other.0))
    }
    #[inline]
    pub fn as_slice(&self) -> &[T] {
        &self.0
    }
    #[inline]
    pub fn as_mut_slice(&mut self) -> &mut [T] {
        &mut self.0
    }
    pub fn pop(&mut self) -> Option<T> {
        self.0.pop()
    }
    pub fn truncate(&mut self, length: usize) {
        self.0.truncate(length)
    }
    pub fn clear(&mut self) {
        self.0.clear()
    }
    pub fn capacity(&self) -> usize {
        self.0.capacity()
    }
    pub fn retain<F: FnMut(&T) -> bool>(&mut self, keeps: F) {
        self.0.retain(keeps)
    }
    pub fn drain<R: std::ops::RangeBounds<usize>>(&mut self, range: R) -> std::vec::Drain<'_, T> {
        self.0.drain(range)
    }
    pub fn into_std(self) -> std::vec::Vec<T> {
        self.0
    }
}

impl<T> Vec<T, Global> {
    pub fn allocator(&self) -> &Global {
        &Global
    }
}

impl<T: Clone, A> Vec<T, A> {
    pub fn from_slice(_: A, items: &[T]) -> Result<Self, AllocError> {
        Ok(Vec(items.to_vec(), PhantomData))
    }
    #[inline]
    pub fn extend_from_slice(&mut self, items: &[T]) -> Result<(), AllocError> {
        Ok(self.0.extend_from_slice(items))
    }
    pub fn from_elem(_: A, item: T, length: usize) -> Result<Self, AllocError> {
        Ok(Vec(std::vec![item; length], PhantomData))
    }
    pub fn resize(&mut self, length: usize, item: T) -> Result<(), AllocError> {
        Ok(self.0.resize(length, item))
    }
}

impl<T, A> Deref for Vec<T, A> {
    type Target = [T];
    #[inline]
    fn deref(&self) -> &[T] {
        &self.0
    }
}
impl<T, A> DerefMut for Vec<T, A> {
    #[inline]
    fn deref_mut(&mut self) -> &mut [T] {
        &mut self.0
    }
}
impl<T, A> IntoIterator for Vec<T, A> {
    type Item = T;
    type IntoIter = std::vec::IntoIter<T>;
    fn into_iter(self) -> Self::IntoIter {
        self.0.into_iter()
    }
}
impl<'v, T, A> IntoIterator for &'v Vec<T, A> {
    type Item = &'v T;
    type IntoIter = std::slice::Iter<'v, T>;
    fn into_iter(self) -> Self::IntoIter {
        self.0.iter()
    }
}
impl<'v, T, A> IntoIterator for &'v mut Vec<T, A> {
    type Item = &'v mut T;
    type IntoIter = std::slice::IterMut<'v, T>;
    fn into_iter(self) -> Self::IntoIter {
        self.0.iter_mut()
    }
}
impl<A> std::io::Write for Vec<u8, A> {
    fn write(&mut self, bytes: &[u8]) -> std::io::Result<usize> {
        self.0.extend_from_slice(bytes);
        Ok(bytes.len())
    }
    fn flush(&mut self) -> std::io::Result<()> {
        Ok(())
    }
}

pub struct String<A = Global>(std::string::String, PhantomData<A>);

impl<A> Clone for String<A> {
    fn clone(&self) -> Self {
        String(self.0.clone(), PhantomData)
    }
}
impl<A> std::fmt::Debug for String<A> {
    fn fmt(&self, f: &mut std::fmt::Formatter<'_>) -> std::fmt::Result {
        self.0.fmt(f)
    }
}
impl<A> std::fmt::Display for String<A> {
    fn fmt(&self, f: &mut std::fmt::Formatter<'_>) -> std::fmt::Result {
        self.0.fmt(f)
    }
}
impl<A> PartialEq for String<A> {
    fn eq(&self, other: &Self) -> bool {
        self.0 == other.0
    }
}
impl<A> PartialEq<str> for String<A> {
    fn eq(&self, other: &str) -> bool {
        self.0 == other
    }
}
impl<A> Eq for String<A> {}
impl<A> Hash for String<A> {
    fn hash<H: std::hash::Hasher>(&self, state: &mut H) {
        self.0.hash(state)
    }
}
impl<A> PartialOrd for String<A> {
    fn partial_cmp(&self, other: &Self) -> Option<std::cmp::Ordering> {
        self.0.partial_cmp(&other.0)
    }
}
impl<A> Ord for String<A> {
    fn cmp(&self, other: &Self) -> std::cmp::Ordering {
        self.0.cmp(&other.0)
    }
}
impl<A> std::borrow::Borrow<str> for String<A> {
    fn borrow(&self) -> &str {
        &self.0
    }
}
impl<A> Deref for String<A> {
    type Target = str;
    fn deref(&self) -> &str {
        &self.0
    }
}

impl<A> String<A> {
    pub fn new(_: A) -> Self {
        String(std::string::String::new(), PhantomData)
    }
    pub fn with_capacity(_: A, room: usize) -> Result<Self, AllocError> {
        Ok(String(std::string::String::with_capacity(room), PhantomData))
    }
    pub fn from_std(_: A, text: std::string::String) -> Self {
        String(text, PhantomData)
    }
    pub fn from_str(_: A, text: &str) -> Result<Self, AllocError> {
        Ok(String(text.to_string(), PhantomData))
    }
    pub fn from_utf8_lossy(_: A, bytes: &[u8]) -> Result<String<A>, AllocError> {
        Ok(String(std::string::String::from_utf8_lossy(bytes).into_owned(), PhantomData))
    }
    pub fn from_utf8(bytes: Vec<u8, A>) -> Result<Self, std::string::FromUtf8Error> {
        Ok(String(std::string::String::from_utf8(bytes.0)?, PhantomData))
    }
    pub unsafe fn from_utf8_unchecked(bytes: Vec<u8, A>) -> Self {
        String(std::string::String::from_utf8_unchecked(bytes.0), PhantomData)
    }
    pub fn into_bytes(self) -> Vec<u8, A> {
        Vec(self.0.into_bytes(), PhantomData)
    }
    pub fn as_str(&self) -> &str {
        &self.0
    }
    pub fn push_str(&mut self, text: &str) -> Result<(), AllocError> {
        Ok(self.0.push_str(text))
    }
    pub fn push(&mut self, character: char) -> Result<(), AllocError> {
        Ok(self.0.push(character))
    }
    pub fn clear(&mut self) {
        self.0.clear()
    }
    pub fn write_fmt(&mut self, form: std::fmt::Arguments<'_>) -> Result<(), AllocError> {
        std::fmt::Write::write_fmt(&mut self.0, form).map_err(|_| AllocError)
    }
    pub fn pop(&mut self) -> Option<char> {
        self.0.pop()
    }
    pub fn truncate(&mut self, length: usize) {
        self.0.truncate(length)
    }
}
impl<A> std::fmt::Write for String<A> {
    fn write_str(&mut self, text: &str) -> std::fmt::Result {
        self.0.write_str(text)
    }
}

#[derive(Debug, Clone)]
pub struct VecDeque<T>(std::collections::VecDeque<T>);
impl<T> VecDeque<T> {
    pub fn new(_: Global) -> Self {
        VecDeque(std::collections::VecDeque::new())
    }
    pub fn with_capacity(_: Global, room: usize) -> Result<Self, AllocError> {
        Ok(VecDeque(std::collections::VecDeque::with_capacity(room)))
    }
    pub fn push_back(&mut self, item: T) -> Result<(), AllocFailed<T>> {
        Ok(self.0.push_back(item))
    }
    pub fn push_front(&mut self, item: T) -> Result<(), AllocFailed<T>> {
        Ok(self.0.push_front(item))
    }
    pub fn reserve(&mut self, more: usize) -> Result<(), AllocError> {
        Ok(self.0.reserve(more))
    }
}
impl<T> Deref for VecDeque<T> {
    type Target = std::collections::VecDeque<T>;
    fn deref(&self) -> &Self::Target {
        &self.0
    }
}
impl<T> DerefMut for VecDeque<T> {
    fn deref_mut(&mut self) -> &mut Self::Target {
        &mut self.0
    }
}
impl<T, A> From<VecDeque<T>> for Vec<T, A> {
    fn from(items: VecDeque<T>) -> Self {
        Vec(items.0.into(), PhantomData)
    }
}
impl<T> IntoIterator for VecDeque<T> {
    type Item = T;
    type IntoIter = std::collections::vec_deque::IntoIter<T>;
    fn into_iter(self) -> Self::IntoIter {
        self.0.into_iter()
    }
}

macro_rules! sets {
    ($name:ident, $($bound:tt)*) => {
        #[derive(Debug)]
        pub struct $name<T>(std::collections::$name<T>);
        impl<T: $($bound)*> $name<T> {
            pub fn new(_: Global) -> Self {
                $name(std::collections::$name::new())
            }
            pub fn insert(&mut self, item: T) -> Result<bool, AllocFailed<T>> {
                Ok(self.0.insert(item))
            }
        }
        impl<T> Deref for $name<T> {
            type Target = std::collections::$name<T>;
            fn deref(&self) -> &Self::Target {
                &self.0
            }
        }
        impl<T> DerefMut for $name<T> {
            fn deref_mut(&mut self) -> &mut Self::Target {
                &mut self.0
            }
        }
    };
}
sets!(BTreeSet, Ord);
sets!(HashSet, Eq + Hash);

macro_rules! maps {
    ($name:ident, $($bound:tt)*) => {
        #[derive(Debug, PartialEq, Eq)]
        pub struct $name<K: $($bound)*, V>(std::collections::$name<K, V>);
        impl<K: $($bound)*, V> $name<K, V> {
            pub fn new(_: Global) -> Self {
                $name(std::collections::$name::new())
            }
            pub fn insert(&mut self, key: K, value: V) -> Result<Option<V>, AllocFailed<(K, V)>> {
                Ok(self.0.insert(key, value))
            }
        }
        impl<K: $($bound)*, V> Deref for $name<K, V> {
            type Target = std::collections::$name<K, V>;
            fn deref(&self) -> &Self::Target {
                &self.0
            }
        }
        impl<K: $($bound)*, V> DerefMut for $name<K, V> {
            fn deref_mut(&mut self) -> &mut Self::Target {
                &mut self.0
            }
        }
    };
}
maps!(BTreeMap, Ord);
maps!(HashMap, Eq + Hash);
impl<K: Ord, V> IntoIterator for BTreeMap<K, V> {
    type Item = (K, V);
    type IntoIter = std::collections::btree_map::IntoIter<K, V>;
    fn into_iter(self) -> Self::IntoIter {
        self.0.into_iter()
    }
}
impl<'m, K: Ord, V> IntoIterator for &'m BTreeMap<K, V> {
    type Item = (&'m K, &'m V);
    type IntoIter = std::collections::btree_map::Iter<'m, K, V>;
    fn into_iter(self) -> Self::IntoIter {
        self.0.iter()
    }
}
