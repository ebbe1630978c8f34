//! Agents that follow protocols, on rings that are simulated here: they search networks of many nodes to the end.

use bhs_agents::{AgentNews, Searcher, SearcherFault};
use bhs_client::{ChartAgent, Protocol, ProtocolAgent};
use bhs_model::{Command, Reply, Text};
use bhs_protocols_charts::memories::{NetworkFacts, Told};
use bhs_schedules::Step;
use std::alloc::{AllocError, Global};
use std::process::Abort;
use std::test::Fail;

/// Where an agent is.
#[derive(Clone, Copy, Debug, PartialEq, Eq, Drop)]
enum Place {
    Node(u16, Option<u16>),
    /// On the link to a node, with the arrival port there.
    Link(u16, u16),
    Ended,
}

/// A ring whose port 0 leads to the next node, and what its whiteboards show.
#[derive(Drop)]
struct Ring {
    alloc: Global,
    hole: u16,
    boards: Vec<String>,
}

impl Ring {
    fn new(alloc: Global, nodes: u16, hole: u16) -> Result<Ring, Fail> {
        let mut boards = Vec::new(alloc);
        for _ in 0..nodes {
            boards.push(String::new(alloc))?;
        }
        Ok(Ring {
            alloc,
            hole,
            boards,
        })
    }

    /// The node behind a port, and the port of that node which leads back.
    fn far(&self, node: u16, port: u16) -> (u16, u16) {
        let nodes = self.boards.len() as u16;
        if port == 0 {
            ((node + 1) % nodes, 1)
        } else {
            ((node + nodes - 1) % nodes, 0)
        }
    }

    fn here(&self, node: u16, came: Option<u16>) -> Result<Reply, AllocError> {
        Ok(Reply::Here {
            ports: 2,
            came,
            board: Text::new(self.alloc, self.boards[usize::from(node)].as_str())?,
        })
    }

    /// Returns the reply to a command of an agent at a node, and the agent's new place.
    fn answer(&mut self, node: u16, came: Option<u16>, command: &Command) -> Result<(Reply, Place), Fail> {
        let stays = Place::Node(node, came);
        Ok(match command {
            Command::Write { expect, put } => {
                let shown = &mut self.boards[usize::from(node)];
                if shown.as_str() == expect.as_str() {
                    *shown = String::from_str(self.alloc, put.as_str())?;
                    (Reply::Written, stays)
                } else {
                    let board = Text::new(self.alloc, shown.as_str())?;
                    (Reply::Changed { board }, stays)
                }
            }
            Command::Depart { port } => {
                let (far, label) = self.far(node, *port);
                (Reply::Gone, Place::Link(far, label))
            }
            Command::Accuse { port: _ } => (Reply::Noted, Place::Ended),
            _ => (self.here(node, came)?, stays),
        })
    }
}

/// The searcher of an agent of a ring, its next step, its place, and the port that it accused.
#[derive(Drop)]
struct Player<S> {
    searcher: S,
    step: Step,
    place: Place,
    accused: Option<u16>,
}

impl<S: Searcher + Drop> Player<S> {
    fn new(mut searcher: S) -> Result<Player<S>, Fail> {
        let step = searcher.begin().map_err(fail)?;
        Ok(Player {
            searcher,
            step,
            place: Place::Node(0, None),
            accused: None,
        })
    }

    /// Takes a turn, and returns whether anything has happened.
    fn turn(&mut self, ring: &mut Ring) -> Result<bool, Fail> {
        let news = match (self.place, &self.step) {
            (Place::Link(node, label), _) if node != ring.hole => {
                self.place = Place::Node(node, Some(label));
                AgentNews::Heard(ring.here(node, Some(label))?)
            }
            (Place::Node(node, came), Step::Says(command)) => {
                if let Command::Accuse { port } = command {
                    self.accused = Some(ring.far(node, *port).0);
                }
                let (reply, place) = ring.answer(node, came, command)?;
                self.place = place;
                AgentNews::Heard(reply)
            }
            (Place::Node(_, _), Step::Sleeps) => AgentNews::Woke,
            _ => return Ok(false),
        };
        self.step = self.searcher.next(&news).map_err(fail)?;
        Ok(true)
    }
}

fn fail(fault: SearcherFault) -> Fail {
    Fail::from(match fault {
        SearcherFault::Size => "size",
        SearcherFault::Refused(_) => "refused",
        SearcherFault::Memory => "memory",
    })
}

/// Plays agents on a ring in turn until one has accused, and asserts that it has accused the black hole.
fn search<R: Abort, S: Searcher + Drop>(rt: &R, ring: &mut Ring, searchers: Vec<S>) -> Result<(), Fail> {
    let mut players = Vec::new(ring.alloc);
    for searcher in searchers {
        players.push(Player::new(searcher)?)?;
    }
    for _ in 0..1_000_000u32 {
        let mut has_moved = false;
        for player in players.iter_mut() {
            has_moved |= player.turn(ring)?;
            if let Some(accused) = player.accused {
                assert_eq!(rt; accused, ring.hole);
                return Ok(());
            }
        }
        assert!(rt; has_moved);
    }
    Err(Fail::from("nobody has accused"))
}

#[test]
fn two_agents_search_large_rings(rt: HostRuntime) -> Result<(), Fail> {
    let alloc = rt.alloc();
    for (nodes, hole) in [(21, 10), (300, 40), (1_000, 700)] {
        for protocol in [Protocol::Halves, Protocol::Shuttle] {
            if protocol == Protocol::Shuttle && nodes > 300 {
                continue;
            }
            let agents = vec![in alloc; ProtocolAgent::new(alloc, protocol, nodes, 0),
                ProtocolAgent::new(alloc, protocol, nodes, 1)]?;
            search(&rt, &mut Ring::new(alloc, nodes, hole)?, agents)?;
        }
    }
    Ok(())
}

#[test]
fn three_agents_draw_charts_of_rings(rt: HostRuntime) -> Result<(), Fail> {
    let alloc = rt.alloc();
    for (nodes, hole) in [(9, 4), (20, 13)] {
        for told in [Told::Links(u32::from(nodes)), Told::Parity] {
            let known = NetworkFacts { nodes, told };
            let agents = vec![in alloc; ChartAgent::new(alloc, known), ChartAgent::new(alloc, known),
                ChartAgent::new(alloc, known)]?;
            search(&rt, &mut Ring::new(alloc, nodes, hole)?, agents)?;
        }
    }
    Ok(())
}
