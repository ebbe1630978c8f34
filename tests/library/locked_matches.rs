//! What stands under the lock of a match, by itself: commands told to it, and settlements of its parts.

use super::shared_matches::shared_match;
use super::triangle::{network, setup};
use bhs_deliveries::{Dealer, Held};
use bhs_shared_match::{SharedMatch, Dispute, LockedMatch, NoHooks, Parts, Pass};
use bhs_match::Match;
use bhs_model::{Command, Reply, Text, Why};
use bhs_net::{Link, Net};
use bhs_time::ScheduleKind;
use std::alloc::Global;
use std::process::Abort;
use std::sync::Wait;
use std::test::Fail;

fn write(alloc: Global, put: &str) -> Result<Command, Fail> {
    Ok(Command::Write {
        expect: Text::empty(),
        put: Text::new(alloc, put)?,
    })
}

/// The reply at the home base where nothing is written.
fn here() -> Reply {
    Reply::Here {
        ports: 2,
        came: None,
        board: Text::empty(),
    }
}

/// The places of the receipts of a pass.
fn places(alloc: Global, pass: &Pass) -> Result<Vec<u32>, Fail> {
    let mut places = Vec::new(alloc);
    for receipt in pass.receipts() {
        places.push(receipt.place)?;
    }
    Ok(places)
}

#[test]
fn the_first_write_counts(rt: HostRuntime) -> Result<(), Fail> {
    let alloc = rt.alloc();
    let (mut locked_match, mut passes) = LockedMatch::new(
        alloc,
        0,
        Match::new(alloc, network(alloc)?, setup(alloc)?)?,
    )?;
    let board = Text::new(alloc, "a")?;
    for (agent, command, place, reply) in vec![in alloc;
        (0, Command::Enter, Some(0), here()),
        (1, Command::Enter, Some(1), here()),
        (0, write(alloc, "a")?, Some(2), Reply::Written),
        (1, write(alloc, "b")?, Some(3), Reply::Changed { board }),
        (1, Command::Enter, None, Reply::No(Why::Twice)),
    ]? {
        let answer = locked_match.submit(&mut passes[agent], command)?;
        assert_eq!(rt; (answer.place, answer.reply), (place, reply));
    }
    assert_eq!(rt; passes.len(), 2);
    assert_eq!(rt; places(alloc, &passes[0])?.as_slice(), [0, 2].as_slice());
    assert_eq!(rt; places(alloc, &passes[1])?.as_slice(), [1, 3].as_slice());
    assert_eq!(rt; locked_match.state().log().len(), 4);
    assert_eq!(rt; locked_match.state().seen(1)?.as_str(), "a");
    Ok(())
}

/// A pass that does not agree with what stands in the locked match changes nothing.
#[test]
fn a_pass_of_another_match_is_no_agent(rt: HostRuntime) -> Result<(), Fail> {
    let alloc = rt.alloc();
    let play = || Ok::<Match, Fail>(Match::new(alloc, network(alloc)?, setup(alloc)?)?);
    let (mut one, mut passes) = LockedMatch::new(alloc, 0, play()?)?;
    let (mut other, _) = LockedMatch::new(alloc, 0, play()?)?;
    assert_eq!(rt; one.submit(&mut passes[0], Command::Enter)?.place, Some(0));
    let answer = other.submit(&mut passes[0], Command::Look)?;
    assert_eq!(rt; (answer.place, answer.reply), (None, Reply::No(Why::Agent)));
    assert_eq!(rt;
        (other.state().log().len(), passes[0].receipts().len()),
        (0, 1)
    );
    Ok(())
}

/// The turn of each event stands beside the log: the number of turns that had passed before it.
#[test]
fn each_event_has_its_turn(rt: HostRuntime) -> Result<(), Fail> {
    let alloc = rt.alloc();
    let net = network(alloc)?;
    let held = Held::new(alloc, &net, &[])?;
    let play = Match::new(alloc, net, setup(alloc)?)?;
    let (mut locked_match, mut passes) = LockedMatch::new(alloc, 0, play)?;
    let mut dealer = Dealer::new([0; 32], 0);
    locked_match.turn(&held, ScheduleKind::Adaptive, &mut dealer);
    locked_match.submit(&mut passes[0], Command::Enter)?;
    locked_match.turn(&held, ScheduleKind::Adaptive, &mut dealer);
    locked_match.turn(&held, ScheduleKind::Adaptive, &mut dealer);
    // a refused command is not logged, so it has no turn
    locked_match.submit(&mut passes[0], Command::Enter)?;
    locked_match.submit(&mut passes[0], Command::Depart { port: 0 })?;
    locked_match.turn(&held, ScheduleKind::Adaptive, &mut dealer);
    locked_match.submit(&mut passes[0], Command::Leave)?;
    assert_eq!(rt; locked_match.turns(), [1, 3, 3, 4].as_slice());
    Ok(())
}

/// A shared match on which agent 0 entered and departed, and its pass.
fn on_its_way<R: Abort + Wait>(rt: &R, alloc: Global) -> Result<(SharedMatch, Pass), Fail> {
    let shared = shared_match(alloc, 0, 2, 10)?;
    let mut pass = shared.claim(rt, 0).expect(rt, "a pass is claimed once");
    for command in vec![in alloc; Command::Enter, Command::Depart { port: 0 }]? {
        shared.submit(rt, &NoHooks, &mut pass, command)?;
    }
    Ok((shared, pass))
}

/// The parts of a match that has ended, and the pass of its agent.
fn ended<R: Abort + Wait>(rt: &R, alloc: Global) -> Result<(Parts, Vec<Pass>), Fail> {
    let (shared, pass) = on_its_way(rt, alloc)?;
    shared.close(rt);
    Ok((shared.into_parts(), vec![in alloc; pass]?))
}

/// Why parts do not settle, and how many events and passes come back.
fn why(parts: Parts, passes: Vec<Pass>) -> (Option<Dispute>, usize, usize) {
    match parts.settle(passes) {
        Ok(settlement) => (None, settlement.sealed.log().len(), 0),
        Err(unsettled) => (
            Some(unsettled.why),
            unsettled.inner.state().log().len(),
            unsettled.passes.len(),
        ),
    }
}

#[test]
fn a_match_of_another_world_does_not_settle(rt: HostRuntime) -> Result<(), Fail> {
    let alloc = rt.alloc();
    let (parts, passes) = ended(&rt, alloc)?;
    assert_eq!(rt; why(parts, passes), (None, 3, 0));

    let (mut parts, passes) = ended(&rt, alloc)?;
    parts.setup.quota = 11;
    assert_eq!(rt; why(parts, passes), (Some(Dispute::World), 3, 1));

    let (mut parts, passes) = ended(&rt, alloc)?;
    let links = [(0, 0, 1, 0), (1, 1, 2, 1), (2, 0, 0, 1)].map(|(v, p, w, q)| Link { v, p, w, q });
    parts.net = Net::try_new(alloc, 3, &links)?;
    assert_eq!(rt; why(parts, passes), (Some(Dispute::World), 3, 1));
    Ok(())
}

/// Two matches of equal receipts: the agent arrived in the one, and its pass is handed in for the other.
#[test]
fn an_arrival_of_another_match_does_not_settle(rt: HostRuntime) -> Result<(), Fail> {
    let alloc = rt.alloc();
    let (first, mut pass) = on_its_way(&rt, alloc)?;
    first.turn(&rt, &mut Dealer::new([0; 32], 0));
    first.news(&rt, &mut pass)?;
    assert_eq!(rt; pass.arrivals().len(), 1);
    let (parts, _) = ended(&rt, alloc)?;
    let stray = Dispute::Arrival { agent: 0, index: 0 };
    assert_eq!(rt; why(parts, vec![in alloc; pass]?), (Some(stray), 3, 1));
    Ok(())
}
