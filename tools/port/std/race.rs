//! A value that the first of several threads sets.
use crate::alloc::Global;
use crate::boxed::Box;
use std::marker::PhantomData;
use std::ptr::null_mut;
use std::sync::atomic::{AtomicPtr, Ordering};

/// Contracts speak of the value by a note, which holds nothing at run time.
pub struct Note<T>(PhantomData<T>);
unsafe impl<T> Send for Note<T> {}
impl<T> Note<T> {
    pub fn again(&mut self) -> Note<T> {
        Note(PhantomData)
    }
    pub fn compare(&mut self, _: Note<T>) {}
}

pub struct OnceBox<T>(AtomicPtr<T>);
impl<T> OnceBox<T> {
    pub fn new(_: Global) -> OnceBox<T> {
        OnceBox(AtomicPtr::new(null_mut()))
    }
    pub fn note(&self) -> Note<T> {
        Note(PhantomData)
    }
    pub fn get_as(&self, _: &mut Note<T>) -> Option<&T> {
        unsafe { self.0.load(Ordering::Acquire).as_ref() }
    }
    pub fn set_as(&self, value: Box<T>, _: &mut Note<T>) -> Result<(), Box<T>> {
        let new = std::boxed::Box::into_raw(std::boxed::Box::new(Box::into_inner(value)));
        match self.0.compare_exchange(null_mut(), new, Ordering::AcqRel, Ordering::Acquire) {
            Ok(_) => Ok(()),
            Err(_) => Err(Box::new(Global, unsafe { *std::boxed::Box::from_raw(new) }).unwrap()),
        }
    }
}
unsafe impl<T: Sync + Send> Sync for OnceBox<T> {}
impl<T> std::ops::Drop for OnceBox<T> {
    fn drop(&mut self) {
        let value = *self.0.get_mut();
        if !value.is_null() {
            drop(unsafe { std::boxed::Box::from_raw(value) });
        }
    }
}
