//! Time.
use crate::io;
pub use std::time::Duration;

/// The clock of a host.
pub trait Clock {
    /// Returns the time since an instant that stays the same while the program runs.
    fn monotonic(&self) -> io::Result<Duration>;
}

pub struct Instant(std::time::Instant);
impl Instant {
    pub fn now<R: Clock>(_: &R) -> io::Result<Instant> {
        Ok(Instant(std::time::Instant::now()))
    }
    pub fn elapsed<R: Clock>(&self, _: &R) -> io::Result<Duration> {
        Ok(self.0.elapsed())
    }
}
