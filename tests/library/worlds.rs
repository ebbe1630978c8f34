//! Worlds: validation of setups, and the answers to sequences of events.

use super::matches::here;
use super::triangle::{network, setup};
use bhs_model::{Command, DarkLinks, Event, Holes, Kept, Mark, Setup, Text, Why};
use bhs_world::{SetupFault, World};
use std::alloc::Global;
use std::test::Fail;

fn holes(alloc: Global, nodes: &[u16]) -> Result<Setup, Fail> {
    Ok(Setup {
        holes: Holes::from(Vec::from_slice(alloc, nodes)?),
        ..setup(alloc)?
    })
}

fn dark(alloc: Global, ends: &[(u16, u16)]) -> Result<Setup, Fail> {
    Ok(Setup {
        dark: DarkLinks::from(Vec::from_slice(alloc, ends)?),
        ..setup(alloc)?
    })
}

/// A setup of this many agents with this quota and whiteboard, from this home.
fn sized(alloc: Global, home: u16, agents: u16, quota: u16, board: u16) -> Result<Setup, Fail> {
    Ok(Setup {
        home,
        agents,
        quota,
        board,
        ..setup(alloc)?
    })
}

#[test]
fn the_first_fault_of_a_setup_is_told(rt: HostRuntime) -> Result<(), Fail> {
    let alloc = rt.alloc();
    for (setup, fault) in vec![in alloc;
        (sized(alloc, 3, 0, 0, 8)?, Some(SetupFault::Home)),
        (holes(alloc, &[0])?, Some(SetupFault::Hole)),
        (holes(alloc, &[3])?, Some(SetupFault::Hole)),
        (holes(alloc, &[2, 2])?, Some(SetupFault::Hole)),
        (sized(alloc, 0, 0, 0, 8)?, Some(SetupFault::Agents)),
        (sized(alloc, 0, 65, 0, 8)?, Some(SetupFault::Agents)),
        (sized(alloc, 0, 64, 0, 8)?, Some(SetupFault::Quota)),
        (dark(alloc, &[(0, 2)])?, Some(SetupFault::Dark)),
        (dark(alloc, &[(0, 1), (2, 1)])?, Some(SetupFault::Dark)),
        (dark(alloc, &[(0, 1)])?, None),
        (sized(alloc, 0, 64, 65_535, 65_535)?, None),
        (setup(alloc)?, None),
    ]? {
        assert_eq!(rt; World::new(alloc, network(alloc)?, setup).err(), fault);
    }
    Ok(())
}

/// Plays an event, which stands in the log then if it is kept.
fn plays(world: &mut World, log: &mut Vec<Kept>, event: Event) -> Result<Option<Mark>, Fail> {
    let is_kept = world.keeps(&event);
    let mark = world.step(log, &event);
    if is_kept {
        log.push(Kept { event, mark })?;
    }
    Ok(mark)
}

fn tell(agent: u16, command: Command) -> Event {
    Event::Tell { agent, command }
}

fn write(alloc: Global, put: &str) -> Result<Command, Fail> {
    Ok(Command::Write {
        expect: Text::empty(),
        put: Text::new(alloc, put)?,
    })
}

#[test]
fn a_label_is_that_of_the_link_where_it_ends(rt: HostRuntime) -> Result<(), Fail> {
    let alloc = rt.alloc();
    let mut world = World::new(alloc, network(alloc)?, holes(alloc, &[])?)?;
    let mut log = Vec::new(alloc);
    for (event, mark) in vec![in alloc;
        (tell(0, Command::Look), Some(Mark::No(Why::Outside))),
        (tell(0, Command::Enter), here(None, None)),
        (tell(0, Command::Depart { port: 0 }), Some(Mark::Gone)),
        (Event::Deliver { agent: 0 }, here(Some(0), None)),
        (tell(0, Command::Depart { port: 1 }), Some(Mark::Gone)),
        (Event::Deliver { agent: 0 }, here(Some(0), None)),
        (tell(0, write(alloc, "a")?), Some(Mark::Written)),
        (
            tell(0, write(alloc, "b")?),
            Some(Mark::Changed { board: Some(5) })
        ),
        (tell(0, Command::Look), here(Some(0), Some(5))),
        (tell(2, Command::Look), Some(Mark::No(Why::Agent))),
    ]? {
        assert_eq!(rt; plays(&mut world, &mut log, event)?, mark);
    }
    assert_eq!(rt; log.len(), 8);
    assert_eq!(rt;
        [0, 1, 2].map(|node| world.last(node)),
        [None, None, Some(5)]
    );
    let agent = world.agent(0);
    assert_eq!(rt;
        (agent.node(), agent.came(), agent.used()),
        (Some(2), Some(0), 5)
    );
    Ok(())
}

#[test]
fn who_goes_into_the_hole_is_lost(rt: HostRuntime) -> Result<(), Fail> {
    let alloc = rt.alloc();
    let mut world = World::new(alloc, network(alloc)?, setup(alloc)?)?;
    let mut log = Vec::new(alloc);
    for (event, mark) in vec![in alloc;
        (tell(1, Command::Enter), here(None, None)),
        (tell(1, Command::Depart { port: 1 }), Some(Mark::Gone)),
        (Event::Deliver { agent: 0 }, None),
        (Event::Deliver { agent: 1 }, None),
        (Event::Deliver { agent: 1 }, None),
        (tell(1, Command::Look), Some(Mark::No(Why::Away))),
        (Event::Close, None),
        (tell(1, Command::Look), Some(Mark::Over)),
    ]? {
        assert_eq!(rt; plays(&mut world, &mut log, event)?, mark);
    }
    assert_eq!(rt; log.len(), 5);
    assert_eq!(rt; world.agent(1).bound(), Some((0, 1)));
    assert!(rt; world.agent(1).lost() && !world.agent(0).lost() && world.closed());
    Ok(())
}
