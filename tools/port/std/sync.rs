//! Locks, and what threads share.
use crate::alloc::{AllocError, Global};
use std::marker::PhantomData;
use std::ops::Deref;
use std::sync::PoisonError;
use std::time::Duration;

pub use std::sync::{atomic, MutexGuard};

#[derive(Clone, Debug)]
pub struct ArcStr<A>(std::sync::Arc<str>, PhantomData<A>);
impl<A> ArcStr<A> {
    pub fn from_str(_: A, text: &str) -> Result<ArcStr<A>, AllocError> {
        Ok(ArcStr(text.into(), PhantomData))
    }
    pub fn as_str(&self) -> &str {
        &self.0
    }
}

pub struct Arc<T, A = Global>(std::sync::Arc<T>, PhantomData<A>);
impl<T, A> Arc<T, A> {
    pub fn new(_: A, item: T) -> Result<Arc<T, A>, AllocError> {
        Ok(Arc(std::sync::Arc::new(item), PhantomData))
    }
    pub fn try_clone(shared: &Arc<T, A>) -> Result<Arc<T, A>, AllocError> {
        Ok(Arc(std::sync::Arc::clone(&shared.0), PhantomData))
    }
}
impl<T, A> Deref for Arc<T, A> {
    type Target = T;
    fn deref(&self) -> &T {
        &self.0
    }
}

/// A bound that every host meets.
pub trait Wait {
    fn forever(&self) -> std::iter::Repeat<()> {
        std::iter::repeat(())
    }
}
impl<T> Wait for T {}

pub struct Mutex<T>(std::sync::Mutex<T>);
impl<T> Mutex<T> {
    pub fn new(item: T) -> Mutex<T> {
        Mutex(std::sync::Mutex::new(item))
    }
    pub fn into_inner(self) -> T {
        self.0.into_inner().unwrap_or_else(PoisonError::into_inner)
    }
    pub fn lock<R: Wait>(&self, _: &R) -> MutexGuard<'_, T> {
        self.0.lock().unwrap_or_else(PoisonError::into_inner)
    }
}

pub struct Condvar(std::sync::Condvar);
impl Condvar {
    pub fn new() -> Condvar {
        Condvar(std::sync::Condvar::new())
    }
    pub fn notify_all(&self) {
        self.0.notify_all();
    }
    pub fn wait<'a, R: Wait, T>(&self, _: &R, guard: MutexGuard<'a, T>) -> MutexGuard<'a, T> {
        self.0.wait(guard).unwrap_or_else(PoisonError::into_inner)
    }
    pub fn wait_while<'a, R: Wait, T, F: FnMut(&mut T) -> bool>(
        &self,
        _: &R,
        guard: MutexGuard<'a, T>,
        holds: F,
    ) -> MutexGuard<'a, T> {
        self.0.wait_while(guard, holds).unwrap_or_else(PoisonError::into_inner)
    }
    pub fn wait_timeout_while<'a, R: Wait, T, F: FnMut(&mut T) -> bool>(
        &self,
        _: &R,
        guard: MutexGuard<'a, T>,
        longest: Duration,
        holds: F,
    ) -> (MutexGuard<'a, T>, std::sync::WaitTimeoutResult) {
        self.0.wait_timeout_while(guard, longest, holds).unwrap_or_else(PoisonError::into_inner)
    }
}
