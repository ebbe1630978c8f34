//! Matches under their locks.

mod under;

use super::shared_matches::shared_match;
use bhs_deliveries::{Dealer, Drawn};
use bhs_shared_match::{SharedMatch, Dispute, LockHooks, NoHooks, Pass, settle};
use bhs_model::{Command, Reply, Text, Why};
use std::alloc::Global;
use std::process::Abort;
use std::sync::Wait;
use std::sync::atomic::{AtomicBool, Ordering};
use std::test::Fail;
use std::thread;
use std::thread::Threads;
use std::time::{Clock, Duration};

fn claimed<R: Abort + Wait>(rt: &R, shared_match: &SharedMatch, agent: u16) -> Pass {
    shared_match.claim(rt, agent).expect(rt, "a pass is claimed once")
}

fn write(alloc: Global, expect: &str, put: &str) -> Command {
    match (Text::new(alloc, expect), Text::new(alloc, put)) {
        (Ok(expect), Ok(put)) => Command::Write { expect, put },
        _ => Command::Bad,
    }
}

/// The kind of a reply.
fn kind(reply: &Reply) -> &'static str {
    match reply {
        Reply::Here { .. } => "here",
        Reply::Written => "written",
        Reply::Changed { .. } => "changed",
        Reply::Gone => "gone",
        Reply::Over => "over",
        Reply::No(Why::Agent) => "no agent",
        Reply::No(_) => "no",
        _ => "ended",
    }
}

/// What the last receipt shows of a whiteboard.
fn seen(pass: &Pass) -> &str {
    match pass.receipts().last().map(|receipt| &receipt.reply) {
        Some(Reply::Here { board, .. } | Reply::Changed { board }) => board.as_str(),
        _ => "",
    }
}

/// The kind of the reply to a command.
fn tell<R: Wait>(rt: &R, shared_match: &SharedMatch, pass: &mut Pass, command: Command) -> &'static str {
    match shared_match.submit(rt, &NoHooks, pass, command) {
        Ok(answer) => kind(&answer.reply),
        Err(_) => "memory",
    }
}

/// How many events the log has, why the match does not settle, and how many passes come back: those that were handed
/// in, and those that are left, claimed or not.
fn outcome(shared_match: SharedMatch, passes: Vec<Pass>) -> (usize, Option<Dispute>, usize, usize) {
    match settle(shared_match, passes) {
        Ok(settlement) => (settlement.sealed.log().len(), None, 0, 0),
        Err(unsettled) => (
            unsettled.inner.state().log().len(),
            Some(unsettled.why),
            unsettled.passes.len(),
            unsettled.left.len(),
        ),
    }
}

/// What settled, with a log of this many events.
const fn settled(events: usize) -> (usize, Option<Dispute>, usize, usize) {
    (events, None, 0, 0)
}

/// Whether an agent enters, writes and looks, and sees what it wrote.
fn writes_and_looks<R: Wait>(rt: &R, alloc: Global, shared_match: &SharedMatch, pass: &mut Pass) -> bool {
    tell(rt, shared_match, pass, Command::Enter) == "here"
        && tell(rt, shared_match, pass, write(alloc, "", "a")) == "written"
        && tell(rt, shared_match, pass, Command::Look) == "here"
        && seen(pass) == "a"
}

/// Whether an agent enters and looks, and sees what another may have written.
fn enters_and_looks<R: Wait>(rt: &R, shared_match: &SharedMatch, pass: &mut Pass) -> bool {
    tell(rt, shared_match, pass, Command::Enter) == "here"
        && tell(rt, shared_match, pass, Command::Look) == "here"
        && (seen(pass) == "" || seen(pass) == "a")
}

#[test]
fn two_threads_share_a_match(rt: HostRuntime) -> Result<(), Fail> {
    let alloc = rt.alloc();
    let shared = shared_match(alloc, 0, 2, 10)?;
    let mut first = claimed(&rt, &shared, 0);
    let mut second = claimed(&rt, &shared, 1);
    assert!(rt; shared.claim(&rt, 1).is_none() && shared.claim(&rt, 2).is_none());
    let (one, two) = thread::join(
        &rt,
        || writes_and_looks(&rt, alloc, &shared, &mut first),
        || enters_and_looks(&rt, &shared, &mut second),
    );
    assert!(rt; one && two);
    shared.close(&rt);
    let passes = vec![in alloc; first, second]?;
    assert_eq!(rt; outcome(shared, passes), settled(6));
    Ok(())
}

/// A shared match on which both agents entered, and their passes.
fn entered<R: Abort + Wait>(rt: &R, alloc: Global) -> Result<(SharedMatch, Vec<Pass>), Fail> {
    let shared = shared_match(alloc, 0, 2, 10)?;
    let mut passes = Vec::with_capacity(alloc, 2)?;
    for agent in 0..2 {
        let mut pass = claimed(rt, &shared, agent);
        assert_eq!(rt; tell(rt, &shared, &mut pass, Command::Enter), "here");
        passes.push(pass)?;
    }
    Ok((shared, passes))
}

/// What comes of a match on which both agents entered, if this many of their passes are handed in.
fn handed_in<R: Abort + Wait>(
    rt: &R,
    alloc: Global,
    count: usize,
) -> Result<(usize, Option<Dispute>, usize, usize), Fail> {
    let (shared, mut passes) = entered(rt, alloc)?;
    passes.truncate(count);
    Ok(outcome(shared, passes))
}

#[test]
fn what_does_not_settle_is_told(rt: HostRuntime) -> Result<(), Fail> {
    for (count, why) in [(1, Dispute::Missing { agent: 1 }), (2, Dispute::NotClosed)] {
        let came = handed_in(&rt, rt.alloc(), count)?;
        assert_eq!(rt; came, (2, Some(why), count, 2));
    }
    Ok(())
}

#[test]
fn a_pass_of_another_match_is_no_agent(rt: HostRuntime) -> Result<(), Fail> {
    let alloc = rt.alloc();
    let other = shared_match(alloc, 1, 2, 10)?;
    let (_shared, passes) = entered(&rt, alloc)?;
    for mut pass in passes {
        assert_eq!(rt; tell(&rt, &other, &mut pass, Command::Look), "no agent");
    }
    Ok(())
}

#[test]
fn a_pass_of_another_match_differs(rt: HostRuntime) -> Result<(), Fail> {
    let alloc = rt.alloc();
    let unused = shared_match(alloc, 0, 2, 10)?;
    unused.close(&rt);
    let (_shared, mut passes) = entered(&rt, alloc)?;
    passes.truncate(1);
    let why = Dispute::Differs {
        agent: 0,
        receipt: 0,
    };
    assert_eq!(rt; outcome(unused, passes), (1, Some(why), 1, 2));
    Ok(())
}

#[test]
fn a_turn_brings_news(rt: HostRuntime) -> Result<(), Fail> {
    let alloc = rt.alloc();
    let shared = shared_match(alloc, 0, 2, 10)?;
    let mut mine = claimed(&rt, &shared, 0);
    assert_eq!(rt; tell(&rt, &shared, &mut mine, Command::Enter), "here");
    assert_eq!(rt;
        tell(&rt, &shared, &mut mine, Command::Depart { port: 0 }),
        "gone"
    );
    let mut dealer = Dealer::new([0; 32], 0);
    assert_eq!(rt;
        shared.turn(&rt, &mut dealer),
        Drawn::Delivered { agent: 0 }
    );
    assert_eq!(rt; news(&rt, &shared, &mut mine), "here");
    shared.close(&rt);
    assert_eq!(rt; news(&rt, &shared, &mut mine), "over");
    assert_eq!(rt; arrived(&mine), Some((2, Some(0))));
    let passes = vec![in alloc; mine]?;
    assert_eq!(rt; outcome(shared, passes), settled(4));
    Ok(())
}

#[test]
fn an_arrival_is_told_after_the_close_too(rt: HostRuntime) -> Result<(), Fail> {
    let alloc = rt.alloc();
    let shared = shared_match(alloc, 0, 2, 10)?;
    let mut mine = claimed(&rt, &shared, 0);
    tell(&rt, &shared, &mut mine, Command::Enter);
    tell(&rt, &shared, &mut mine, Command::Depart { port: 0 });
    shared.turn(&rt, &mut Dealer::new([0; 32], 0));
    shared.close(&rt);
    assert_eq!(rt; news(&rt, &shared, &mut mine), "here");
    assert_eq!(rt; news(&rt, &shared, &mut mine), "over");
    Ok(())
}

/// The kind of an agent's news.
fn news<R: Wait>(rt: &R, shared_match: &SharedMatch, pass: &mut Pass) -> &'static str {
    match shared_match.news(rt, pass) {
        Ok(reply) => kind(&reply),
        Err(_) => "memory",
    }
}

/// Returns the log place of a pass's only arrival, and its arrival label.
fn arrived(pass: &Pass) -> Option<(u32, Option<u16>)> {
    match pass.arrivals() {
        [only] => match only.reply {
            Reply::Here { came, .. } => Some((only.place, came)),
            _ => None,
        },
        _ => None,
    }
}

/// Waits until the flag is set, for ten seconds at most; then it gives up.
fn wait_for<C: Clock>(clock: &C, flag: &AtomicBool, gave_up: &AtomicBool) {
    for _ in 0..10_000 {
        if flag.load(Ordering::SeqCst) {
            return;
        }
        thread::sleep(clock, Duration::from_millis(1));
    }
    gave_up.store(true, Ordering::SeqCst);
}

/// Lets a thread under the lock of match 0 wait for one that was under the lock of match 1.
#[derive(Drop)]
struct Crossing<'a, C: Clock> {
    clock: &'a C,
    is_first_locked: AtomicBool,
    is_second_answered: AtomicBool,
    gave_up: AtomicBool,
}

impl<C: Clock> Crossing<'_, C> {
    fn waits_for(&self, flag: &AtomicBool) {
        wait_for(self.clock, flag, &self.gave_up);
    }
}

impl<C: Clock> LockHooks for Crossing<'_, C> {
    fn asked(&self, game: u32, _agent: u16) {
        if game == 1 {
            self.waits_for(&self.is_first_locked);
        }
    }

    fn locked(&self, game: u32, _agent: u16) {
        if game == 0 {
            self.is_first_locked.store(true, Ordering::SeqCst);
            self.waits_for(&self.is_second_answered);
        }
    }

    fn answered(&self, game: u32, _agent: u16) {
        if game == 1 {
            self.is_second_answered.store(true, Ordering::SeqCst);
        }
    }
}

/// Whether an agent enters, through a hooks.
fn enters<R: Wait, G: LockHooks>(rt: &R, lock_hooks: &G, shared_match: &SharedMatch, pass: &mut Pass) -> bool {
    shared_match.submit(rt, lock_hooks, pass, Command::Enter).is_ok()
}

#[test]
fn matches_share_no_lock(rt: HostRuntime) -> Result<(), Fail> {
    let alloc = rt.alloc();
    let shared_matches = [shared_match(alloc, 0, 1, 10)?, shared_match(alloc, 1, 1, 10)?];
    let mut first = claimed(&rt, &shared_matches[0], 0);
    let mut second = claimed(&rt, &shared_matches[1], 0);
    let lock_hooks = Crossing {
        clock: &rt,
        is_first_locked: AtomicBool::new(false),
        is_second_answered: AtomicBool::new(false),
        gave_up: AtomicBool::new(false),
    };
    let (one, two) = thread::join(
        &rt,
        || enters(&rt, &lock_hooks, &shared_matches[0], &mut first),
        || enters(&rt, &lock_hooks, &shared_matches[1], &mut second),
    );
    assert!(rt; one && two && !lock_hooks.gave_up.load(Ordering::SeqCst));
    Ok(())
}

/// A pass after this many commands: an Enter, then Writes and Looks in turn.
fn played<R: Wait>(rt: &R, alloc: Global, shared_match: &SharedMatch, mut pass: Pass, commands: u32) -> Pass {
    tell(rt, shared_match, &mut pass, Command::Enter);
    for place in 1..commands {
        let command = if place % 2 == 0 {
            Command::Look
        } else {
            write(alloc, seen(&pass), "b")
        };
        tell(rt, shared_match, &mut pass, command);
    }
    pass
}

/// The passes of all agents of a shared match.
fn all_claimed<R: Abort + Wait>(
    rt: &R,
    alloc: Global,
    shared_match: &SharedMatch,
    agents: u16,
) -> Result<Vec<Pass>, Fail> {
    let mut passes = Vec::with_capacity(alloc, usize::from(agents))?;
    for agent in 0..agents {
        passes.push(claimed(rt, shared_match, agent))?;
    }
    Ok(passes)
}

#[test]
fn sixteen_threads_share_a_match(rt: HostRuntime) -> Result<(), Fail> {
    let alloc = rt.alloc();
    let shared = shared_match(alloc, 0, 16, 1000)?;
    let passes = all_claimed(&rt, alloc, &shared, 16)?;
    let passes = thread::map_vec(&rt, passes, &|pass| played(&rt, alloc, &shared, pass, 2000))?;
    shared.close(&rt);
    assert_eq!(rt; outcome(shared, passes), settled(16 * 1001 + 1));
    Ok(())
}

/// Plays an agent on the shared match of this place.
fn played_there<R: Abort + Wait>(
    rt: &R,
    alloc: Global,
    shared_matches: &[SharedMatch],
    place: usize,
    agent: u16,
) -> Pass {
    let shared_match = shared_matches.get(place).expect(rt, "a shared_match of this place");
    played(rt, alloc, shared_match, claimed(rt, shared_match, agent), 11)
}

/// Plays agent 0 on the shared match of this place, and agent 1 on the next of 64.
fn on_two<R: Abort + Wait>(rt: &R, alloc: Global, shared_matches: &[SharedMatch], place: usize) -> (Pass, Pass) {
    (
        played_there(rt, alloc, shared_matches, place, 0),
        played_there(rt, alloc, shared_matches, (place % 64 + 1) % 64, 1),
    )
}

#[test]
fn sixty_four_threads_play_sixty_four_matches(rt: HostRuntime) -> Result<(), Fail> {
    let alloc = rt.alloc();
    let mut shared_matches = Vec::with_capacity(alloc, 64)?;
    for game in 0..64 {
        shared_matches.push(shared_match(alloc, game, 2, 10)?)?;
    }
    let pairs = thread::map_indices(&rt, alloc, 64, &|place| on_two(&rt, alloc, &shared_matches, place))?;
    let mut firsts = Vec::with_capacity(alloc, 64)?;
    let mut seconds = Vec::with_capacity(alloc, 64)?;
    for (first, second) in pairs {
        firsts.push(first)?;
        seconds.push(second)?;
    }
    if let Some(last) = seconds.pop() {
        seconds.insert(0, last)?;
    }
    for ((shared, first), second) in shared_matches.into_iter().zip(firsts).zip(seconds) {
        shared.close(&rt);
        let passes = vec![in alloc; first, second]?;
        assert_eq!(rt; outcome(shared, passes), settled(23));
    }
    Ok(())
}

#[test]
fn a_match_is_gathered_and_decided(rt: HostRuntime) -> Result<(), Fail> {
    let alloc = rt.alloc();
    let shared_match = shared_match(alloc, 0, 2, 10)?;
    let mut first = claimed(&rt, &shared_match, 0);
    let mut second = claimed(&rt, &shared_match, 1);
    tell(&rt, &shared_match, &mut second, Command::Enter);
    assert!(rt; !shared_match.is_gathered(&rt));
    tell(&rt, &shared_match, &mut first, Command::Enter);
    assert!(rt; shared_match.is_gathered(&rt) && !shared_match.is_decided(&rt));
    tell(&rt, &shared_match, &mut first, Command::Leave);
    tell(&rt, &shared_match, &mut second, Command::Depart { port: 1 });
    assert!(rt; !shared_match.is_decided(&rt));
    shared_match.turn(&rt, &mut Dealer::new([0; 32], 0));
    assert!(rt; shared_match.is_decided(&rt) && shared_match.is_gathered(&rt));
    Ok(())
}

#[test]
fn what_a_match_has_kept_is_copied_in_parts(rt: HostRuntime) -> Result<(), Fail> {
    let alloc = rt.alloc();
    let shared_match = shared_match(alloc, 0, 1, 10)?;
    let mut pass = claimed(&rt, &shared_match, 0);
    tell(&rt, &shared_match, &mut pass, Command::Enter);
    tell(&rt, &shared_match, &mut pass, write(alloc, "", "a"));
    tell(&rt, &shared_match, &mut pass, Command::Look);
    let copied = shared_match.copies(&rt, alloc, 1, 5)?;
    let kinds = [copied.first(), copied.get(1), copied.get(2)].map(|one| one
        .and_then(|one| one.reply.as_ref())
        .map_or("none", kind));
    assert_eq!(rt; kinds.as_slice(), ["written", "here", "none"].as_slice());
    assert_eq!(rt; shared_match.copies(&rt, alloc, 0, 2)?.len(), 2);
    assert!(rt;
        shared_match.copies(&rt, alloc, 3, 2)?.is_empty() && shared_match.copies(&rt, alloc, 9, 2)?.is_empty()
    );
    Ok(())
}
