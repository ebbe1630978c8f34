//! Commands that are told while memory is refused. Memory may be wanted only for a reply that says what a whiteboard
//! shows, or that it was written; such a command is repeated. All other commands are answered without memory.

use super::{TRIANGLE, mark, write};
use bhs_deliveries::Held;
use bhs_files::read_network;
use bhs_shared_match::{Answer, SharedMatch, LockedMatch, NoHooks};
use bhs_match::Match;
use bhs_model::{Command, Reply, Text, Why};
use bhs_net::Memory;
use bhs_time::ScheduleKind;
use std::alloc::Global;
use std::process::Abort;
use std::test::Fail;

/// A match of two agents with this quota on the triangle, and no held link.
fn play(alloc: Global, quota: u16) -> Result<(Match, Held), Fail> {
    let net = read_network(alloc, TRIANGLE)?;
    let held = Held::new(alloc, &net, &[])?;
    let mut setup = super::setup(alloc)?;
    setup.quota = quota;
    Ok((Match::new(alloc, net, setup)?, held))
}

fn shared_match(alloc: Global, game: u32, quota: u16) -> Result<SharedMatch, Fail> {
    let (play, held) = play(alloc, quota)?;
    Ok(SharedMatch::new(alloc, game, play, held, ScheduleKind::Adaptive)?)
}

fn here(alloc: Global, board: &str) -> Result<Reply, Fail> {
    Ok(Reply::Here {
        ports: 2,
        came: None,
        board: Text::new(alloc, board)?,
    })
}

/// Submits commands and compares each reply with the expected one.
fn are_told<R: Abort>(
    rt: &R,
    alloc: Global,
    rows: Vec<(Command, Reply)>,
    mut tell: impl FnMut(Command) -> Result<Answer, Memory>,
) -> Result<(), Fail> {
    for (command, reply) in rows {
        let again = command.clone()?;
        let may_want = matches!(
            reply,
            Reply::Here { .. } | Reply::Written | Reply::Changed { .. }
        );
        mark(alloc)?;
        let answer = match tell(command) {
            Err(_) if may_want => tell(again),
            answer => answer,
        };
        mark(alloc)?;
        let Ok(answer) = answer else {
            return Err(Fail::from("memory was wanted for a reply without a whiteboard"));
        };
        assert_eq!(rt; answer.reply, reply);
    }
    Ok(())
}

/// Every kind of command, at a node, on a link and after the end.
fn each_kind(alloc: Global) -> Result<Vec<(Command, Reply)>, Fail> {
    let long = Command::Write {
        expect: Text::empty(),
        put: Text::new(alloc, "123456789")?,
    };
    let changed = Reply::Changed {
        board: Text::new(alloc, "ab")?,
    };
    Ok(vec![in alloc;
        (Command::Look, Reply::No(Why::Outside)),
        (Command::Enter, here(alloc, "")?),
        (Command::Enter, Reply::No(Why::Twice)),
        (write(alloc)?, Reply::Written),
        (write(alloc)?, changed),
        (Command::Look, here(alloc, "ab")?),
        (long, Reply::No(Why::Long)),
        (Command::Accuse { port: 9 }, Reply::No(Why::Port)),
        (Command::Bad, Reply::No(Why::Line)),
        (Command::Depart { port: 0 }, Reply::Gone),
        (Command::Look, Reply::No(Why::Away)),
        (write(alloc)?, Reply::No(Why::Away)),
        (Command::Leave, Reply::Bye),
        (Command::Depart { port: 0 }, Reply::No(Why::Ended)),
    ]?)
}

#[test]
fn a_locked_match_is_told_each_kind(rt: HostRuntime) -> Result<(), Fail> {
    let alloc = rt.alloc();
    let (mut locked_match, mut passes) = LockedMatch::new(alloc, 0, play(alloc, 10)?.0)?;
    let pass = &mut passes[0];
    are_told(
        &rt,
        alloc,
        each_kind(alloc)?,
        |command| locked_match.submit(pass, command),
    )
}

#[test]
fn a_shared_match_is_told_each_kind(rt: HostRuntime) -> Result<(), Fail> {
    let alloc = rt.alloc();
    let shared_match = shared_match(alloc, 0, 10)?;
    let mut pass = shared_match.claim(&rt, 0).expect(&rt, "a pass is claimed once");
    are_told(&rt, alloc, each_kind(alloc)?, |command| {
        shared_match.submit(&rt, &NoHooks, &mut pass, command)
    })
}

/// Returns the commands that use up a quota of 2, and their replies.
fn until_full(alloc: Global) -> Result<Vec<(Command, Reply)>, Fail> {
    Ok(vec![in alloc;
        (Command::Enter, here(alloc, "")?),
        (write(alloc)?, Reply::Written),
        (Command::Depart { port: 0 }, Reply::Gone),
        (Command::Look, Reply::No(Why::Spent)),
        (write(alloc)?, Reply::No(Why::Spent)),
        (Command::Accuse { port: 0 }, Reply::No(Why::Spent)),
        (Command::Bad, Reply::No(Why::Spent)),
        (Command::Leave, Reply::Bye),
        (Command::Look, Reply::No(Why::Ended)),
        (write(alloc)?, Reply::No(Why::Ended)),
        (Command::Depart { port: 0 }, Reply::No(Why::Ended)),
        (Command::Enter, Reply::No(Why::Twice)),
    ]?)
}

#[test]
fn a_locked_match_answers_a_full_pass(rt: HostRuntime) -> Result<(), Fail> {
    let alloc = rt.alloc();
    let (mut locked_match, mut passes) = LockedMatch::new(alloc, 0, play(alloc, 2)?.0)?;
    let pass = &mut passes[0];
    are_told(
        &rt,
        alloc,
        until_full(alloc)?,
        |command| locked_match.submit(pass, command),
    )
}

#[test]
fn a_shared_match_answers_a_full_pass(rt: HostRuntime) -> Result<(), Fail> {
    let alloc = rt.alloc();
    let shared_match = shared_match(alloc, 0, 2)?;
    let mut pass = shared_match.claim(&rt, 0).expect(&rt, "a pass is claimed once");
    are_told(&rt, alloc, until_full(alloc)?, |command| {
        shared_match.submit(&rt, &NoHooks, &mut pass, command)
    })
}

#[test]
fn a_shared_match_answers_who_accuses_who_is_strange_and_who_comes_late(
    rt: HostRuntime,
) -> Result<(), Fail> {
    let alloc = rt.alloc();
    let shared = shared_match(alloc, 0, 10)?;
    let mut pass = shared.claim(&rt, 0).expect(&rt, "a pass is claimed once");
    let accuses = vec![in alloc;
        (Command::Enter, here(alloc, "")?),
        (write(alloc)?, Reply::Written),
        (Command::Accuse { port: 1 }, Reply::Noted),
        (Command::Leave, Reply::No(Why::Ended)),
    ]?;
    are_told(&rt, alloc, accuses, |command| {
        shared.submit(&rt, &NoHooks, &mut pass, command)
    })?;
    let other = shared_match(alloc, 1, 10)?;
    let mut pass = other.claim(&rt, 0).expect(&rt, "a pass is claimed once");
    let strange = vec![in alloc;
        (Command::Enter, Reply::No(Why::Agent)),
        (write(alloc)?, Reply::No(Why::Agent)),
    ]?;
    are_told(&rt, alloc, strange, |command| {
        shared.submit(&rt, &NoHooks, &mut pass, command)
    })?;
    let mut pass = shared.claim(&rt, 1).expect(&rt, "a pass is claimed once");
    shared.close(&rt);
    let late = vec![in alloc;
        (Command::Enter, Reply::Over),
        (Command::Look, Reply::Over),
        (write(alloc)?, Reply::Over),
        (Command::Leave, Reply::Over),
    ]?;
    are_told(&rt, alloc, late, |command| {
        shared.submit(&rt, &NoHooks, &mut pass, command)
    })
}
