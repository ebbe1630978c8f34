//! Playing takes no memory.

use super::{triangle, write};
use bhs_model::{Command, Event};
use std::alloc::Global;
use std::test::Fail;

// Two agents meet at a whiteboard, and one goes on and is lost.
fn events(alloc: Global) -> Result<Vec<Event>, Fail> {
    let tell = |agent, command| Event::Tell { agent, command };
    Ok(vec![in alloc;
        tell(0, Command::Enter),
        tell(1, Command::Enter),
        tell(1, Command::Depart { port: 0 }),
        Event::Deliver { agent: 1 },
        tell(1, write(alloc)?),
        tell(0, Command::Look),
        tell(0, Command::Depart { port: 0 }),
        Event::Deliver { agent: 0 },
        tell(0, Command::Look),
        tell(1, Command::Depart { port: 1 }),
        Event::Deliver { agent: 1 },
        tell(1, Command::Leave),
        Event::Close,
    ]?)
}

/// The first request after the match is made is that of the last lines.
#[test]
fn playing_takes_no_memory(rt: HostRuntime) -> Result<(), Fail> {
    let alloc = rt.alloc();
    let events = events(alloc)?;
    let Some((mut game, _)) = triangle(alloc) else {
        return Err(Fail::from("memory"));
    };
    for event in events {
        assert!(rt; game.apply(event).place.is_some());
    }
    assert_eq!(rt; game.log().len(), 13);
    match Vec::<u8>::with_capacity(alloc, 1) {
        Ok(_) => Ok(()),
        Err(_) => Err(Fail::from("the request for memory after the play was refused")),
    }
}
