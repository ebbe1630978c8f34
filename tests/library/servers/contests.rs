use super::super::shared_matches::shared_match;
use bhs_deliveries::Dealer;
use bhs_setups::Keys;
use bhs_server::{Contest, Pace, PaceStep};
use std::alloc::Global;
use std::sync::atomic::{AtomicBool, AtomicU32, Ordering};
use std::test::Fail;
use std::thread;
use std::time::{Clock, Duration};

/// This many matches on the triangle, with black hole 2. The key of an agent is `k`, the number of its match, a hyphen
/// and its number.
pub(super) fn contest(alloc: Global, games: u32, agents: u16) -> Result<Contest, Fail> {
    let mut shared_matches = Vec::new(alloc);
    let mut dealers = Vec::new(alloc);
    let mut keys = Keys::new(alloc);
    for game in 0..games {
        shared_matches.push(shared_match(alloc, game, agents, 10)?)?;
        dealers.push(Dealer::new([0; 32], u64::from(game)))?;
        for agent in 0..agents {
            keys.insert(format!(in alloc; "k{game}-{agent}")?, (game, agent))?;
        }
    }
    Ok(Contest {
        shared_matches,
        dealers,
        keys,
    })
}

/// Takes turns once enough clients have come far enough, and closes the matches once more of them have.
#[derive(Drop)]
pub(super) struct Patience<'a, C> {
    clock: &'a C,
    begins: u32,
    ends: u32,
    reached: AtomicU32,
    gave_up: AtomicBool,
}

impl<'a, C: Clock> Patience<'a, C> {
    pub(super) fn new(clock: &'a C, begins: u32, ends: u32) -> Patience<'a, C> {
        Patience {
            clock,
            begins,
            ends,
            reached: AtomicU32::new(0),
            gave_up: AtomicBool::new(false),
        }
    }

    /// A client has come far enough.
    pub(super) fn reach(&self) {
        self.reached.fetch_add(1, Ordering::SeqCst);
    }

    /// Whether a client took longer than ten thousand sleeps of a millisecond.
    pub(super) fn gave_up(&self) -> bool {
        self.gave_up.load(Ordering::SeqCst)
    }

    fn waits_for(&self, clients: u32) {
        for _ in 0..10_000 {
            if self.reached.load(Ordering::SeqCst) >= clients {
                return;
            }
            thread::sleep(self.clock, Duration::from_millis(1));
        }
        self.gave_up.store(true, Ordering::SeqCst);
    }
}

/// How many turns are taken before a close at least.
const TURNS: u32 = 100;

impl<C: Clock> Pace for Patience<'_, C> {
    ghost use Rattle.std.specs.Prelude.{Unit};

    ghost says = { λ patience game turn step. Unit {0} };

    fn next(&self, _game: u32, turn: u32) -> PaceStep {
        self.waits_for(self.begins);
        if turn >= TURNS && self.reached.load(Ordering::SeqCst) >= self.ends {
            return PaceStep::Close;
        }
        if turn >= 10_000 {
            self.gave_up.store(true, Ordering::SeqCst);
            return PaceStep::Close;
        }
        thread::sleep(self.clock, Duration::from_millis(1));
        PaceStep::Turn
    }

    fn gathers(&self, _game: u32) -> bool {
        true
    }
}
