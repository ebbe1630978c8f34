//! The hooks is called under the lock: while one command is held there, no other of its match comes so far.

use super::{shared_match, claimed, enters, wait_for};
use bhs_shared_match::LockHooks;
use std::sync::atomic::{AtomicBool, Ordering};
use std::test::Fail;
use std::thread;
use std::time::{Clock, Duration};

/// Keeps the command of agent 0 under the lock until that of agent 1 was asked for, and a while longer.
#[derive(Drop)]
struct Keeper<'a, C: Clock> {
    clock: &'a C,
    is_first_locked: AtomicBool,
    is_second_asked: AtomicBool,
    is_first_kept: AtomicBool,
    came_between: AtomicBool,
    gave_up: AtomicBool,
}

impl<C: Clock> Keeper<'_, C> {
    fn waits_for(&self, flag: &AtomicBool) {
        wait_for(self.clock, flag, &self.gave_up);
    }
}

impl<C: Clock> LockHooks for Keeper<'_, C> {
    fn asked(&self, _game: u32, agent: u16) {
        if agent == 1 {
            self.waits_for(&self.is_first_locked);
            self.is_second_asked.store(true, Ordering::SeqCst);
        }
    }

    fn locked(&self, _game: u32, agent: u16) {
        if agent == 0 {
            self.is_first_kept.store(true, Ordering::SeqCst);
            self.is_first_locked.store(true, Ordering::SeqCst);
            self.waits_for(&self.is_second_asked);
            thread::sleep(self.clock, Duration::from_millis(100));
            self.is_first_kept.store(false, Ordering::SeqCst);
        } else if self.is_first_kept.load(Ordering::SeqCst) {
            self.came_between.store(true, Ordering::SeqCst);
        }
    }

    fn answered(&self, _game: u32, agent: u16) {
        if agent == 1 && self.is_first_kept.load(Ordering::SeqCst) {
            self.came_between.store(true, Ordering::SeqCst);
        }
    }
}

#[test]
fn a_command_under_the_lock_keeps_others_out(rt: HostRuntime) -> Result<(), Fail> {
    let shared = shared_match(rt.alloc(), 0, 2, 10)?;
    let mut first = claimed(&rt, &shared, 0);
    let mut second = claimed(&rt, &shared, 1);
    let lock_hooks = Keeper {
        clock: &rt,
        is_first_locked: AtomicBool::new(false),
        is_second_asked: AtomicBool::new(false),
        is_first_kept: AtomicBool::new(false),
        came_between: AtomicBool::new(false),
        gave_up: AtomicBool::new(false),
    };
    let (one, two) = thread::join(
        &rt,
        || enters(&rt, &lock_hooks, &shared, &mut first),
        || enters(&rt, &lock_hooks, &shared, &mut second),
    );
    assert!(rt; one && two && !lock_hooks.gave_up.load(Ordering::SeqCst));
    assert!(rt; !lock_hooks.came_between.load(Ordering::SeqCst));
    assert_eq!(rt;
        (first.receipts()[0].place, second.receipts()[0].place),
        (0, 1)
    );
    Ok(())
}
