use super::contests::Patience;
use bhs_shared_match::LockHooks;
use std::sync::atomic::{AtomicBool, Ordering};
use std::thread;
use std::time::{Clock, Duration};

/// Lets a command of agent 0 wait until a command of agent 1 was answered.
#[derive(Drop)]
pub(super) struct Turnstile<'a, C> {
    clock: &'a C,
    is_answered: AtomicBool,
    gave_up: AtomicBool,
}

impl<'a, C: Clock> Turnstile<'a, C> {
    pub(super) fn new(clock: &'a C) -> Turnstile<'a, C> {
        Turnstile {
            clock,
            is_answered: AtomicBool::new(false),
            gave_up: AtomicBool::new(false),
        }
    }

    pub(super) fn gave_up(&self) -> bool {
        self.gave_up.load(Ordering::SeqCst)
    }
}

impl<C: Clock> LockHooks for Turnstile<'_, C> {
    fn asked(&self, _game: u32, agent: u16) {
        if agent != 0 {
            return;
        }
        for _ in 0..10_000 {
            if self.is_answered.load(Ordering::SeqCst) {
                return;
            }
            thread::sleep(self.clock, Duration::from_millis(1));
        }
        self.gave_up.store(true, Ordering::SeqCst);
    }

    fn locked(&self, _game: u32, _agent: u16) {}

    fn answered(&self, _game: u32, agent: u16) {
        if agent == 1 {
            self.is_answered.store(true, Ordering::SeqCst);
        }
    }
}

/// Counts each command that was answered, also the leaves of sessions that fail, as a client that has come far enough.
#[derive(Drop)]
pub(super) struct Counted<'a, 'b, C> {
    pace: &'a Patience<'b, C>,
}

impl<'a, 'b, C: Clock> Counted<'a, 'b, C> {
    pub(super) fn new(pace: &'a Patience<'b, C>) -> Counted<'a, 'b, C> {
        Counted { pace }
    }
}

impl<C: Clock> LockHooks for Counted<'_, '_, C> {
    fn asked(&self, _game: u32, _agent: u16) {}

    fn locked(&self, _game: u32, _agent: u16) {}

    fn answered(&self, _game: u32, _agent: u16) {
        self.pace.reach();
    }
}
