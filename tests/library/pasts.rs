//! Matches that are drawn from a seed: each agent's past, played by itself, is answered as it was; and the twin of each
//! node is refused as it should be, or each agent was answered the same in it.

use super::played::twin_played;
use bhs_deliveries::Dealer;
use bhs_match::{Match, Sealed};
use bhs_model::{Command, DarkLinks, Event, Holes, Mark, Reply, Setup, Text};
use bhs_net::{Link, Net};
use bhs_view::{TwinFault, cut_of, restrict, twin_of};
use std::alloc::Global;
use std::test::Fail;

const MATCHES: u64 = 200;

const AGENTS: u16 = 3;

const EVENTS: u16 = 80;

/// A number below another.
fn below(words: &mut Dealer, bound: u16) -> u16 {
    let rest = words.next().checked_rem(u32::from(bound)).unwrap_or(0);
    u16::try_from(rest).unwrap_or(0)
}

/// A ring, in which a chord may join node 0 to the one opposite.
fn network(alloc: Global, nodes: u16, has_chord: bool) -> Result<Net, Fail> {
    let mut links = Vec::new(alloc);
    for node in 0..nodes {
        links.push(Link {
            v: node,
            p: 0,
            w: if node + 1 < nodes { node + 1 } else { 0 },
            q: 1,
        })?;
    }
    if has_chord {
        links.push(Link {
            v: 0,
            p: 2,
            w: nodes / 2,
            q: 2,
        })?;
    }
    Ok(Net::try_new(alloc, nodes, &links)?)
}

/// Black holes and dark links by chance, none at home.
fn setup(alloc: Global, words: &mut Dealer, nodes: u16) -> Result<Setup, Fail> {
    let mut holes = Vec::new(alloc);
    for node in 1..nodes {
        if below(words, 4) == 0 {
            holes.push(node)?;
        }
    }
    let mut dark = Vec::new(alloc);
    if below(words, 3) == 0 {
        dark.push((below(words, nodes), 0))?;
    }
    Ok(Setup {
        home: 0,
        holes: Holes::from(holes),
        dark: DarkLinks::from(dark),
        agents: AGENTS,
        quota: 24,
        board: 2,
    })
}

fn text(alloc: Global, words: &mut Dealer) -> Result<Text, Fail> {
    let text = match below(words, 4) {
        0 | 1 => "",
        2 => "é",
        _ => "long",
    };
    Ok(Text::new(alloc, text)?)
}

fn event(alloc: Global, words: &mut Dealer) -> Result<Event, Fail> {
    let agent = below(words, AGENTS);
    let command = match below(words, 32) {
        0 => Command::Leave,
        1 => Command::Accuse {
            port: below(words, 3),
        },
        2..6 => Command::Look,
        6..12 => Command::Write {
            expect: text(alloc, words)?,
            put: text(alloc, words)?,
        },
        12..22 => Command::Depart {
            port: below(words, 3),
        },
        _ => return Ok(Event::Deliver { agent }),
    };
    Ok(Event::Tell { agent, command })
}

/// A match that has ended.
fn played(alloc: Global, words: &mut Dealer) -> Result<Sealed, Fail> {
    let nodes = below(words, 6).saturating_add(3);
    let has_chord = nodes > 3 && below(words, 2) == 0;
    let net = network(alloc, nodes, has_chord)?;
    let setup = setup(alloc, words, nodes)?;
    let mut game = Match::new(alloc, net, setup)?;
    for agent in 0..AGENTS {
        game.apply(Event::Tell {
            agent,
            command: Command::Enter,
        });
    }
    for _ in 0..EVENTS {
        game.apply(event(alloc, words)?);
    }
    game.apply(Event::Close);
    game.sealed()
        .map_err(|_| Fail::from("a match that goes on"))
}

fn agent_of(event: &Event) -> Option<u16> {
    match event {
        Event::Tell { agent, .. } | Event::Deliver { agent } => Some(*agent),
        Event::Close => None,
    }
}

fn event_at(sealed: &Sealed, place: usize) -> Option<&Event> {
    Some(&sealed.log().get(place)?.event)
}

fn reply_at(sealed: &Sealed, place: usize) -> Result<Option<Reply>, Fail> {
    let Some(kept) = sealed.log().get(place) else {
        return Ok(None);
    };
    match &kept.mark {
        Some(mark) => Ok(Some(sealed.reply(mark)?)),
        None => Ok(None),
    }
}

/// Returns whether the agent's causal past contains all its events, and gets the same replies when played alone.
fn is_past_told(alloc: Global, whole: &Sealed, agent: u16) -> Result<bool, Fail> {
    let past = cut_of(alloc, whole, agent)?;
    let own = whole
        .log()
        .iter()
        .filter(|kept| agent_of(&kept.event) == Some(agent))
        .count();
    let mut own_told: usize = 0;
    let part = restrict(alloc, whole, &past)?;
    for (index, place) in past.iter().enumerate() {
        let place = *place as usize;
        let event = event_at(whole, place);
        if event_at(&part, index) != event || reply_at(&part, index)? != reply_at(whole, place)? {
            return Ok(false);
        }
        if event.and_then(agent_of) == Some(agent) {
            own_told = own_told.saturating_add(1);
        }
    }
    Ok(own_told == own)
}

#[test]
fn pasts_by_themselves(rt: HostRuntime) -> Result<(), Fail> {
    for number in 0..MATCHES {
        let whole = played(rt.alloc(), &mut Dealer::new([3; 32], number))?;
        for agent in 0..AGENTS {
            assert!(rt; is_past_told(rt.alloc(), &whole, agent)?);
        }
    }
    Ok(())
}

/// What each arrival or answer told the agent, in order.
fn replies_to(alloc: Global, sealed: &Sealed, agent: u16) -> Result<Vec<Reply>, Fail> {
    let mut replies = Vec::new(alloc);
    for kept in sealed.log() {
        if let (Some(told), Some(mark)) = (agent_of(&kept.event), &kept.mark) {
            if told == agent {
                replies.push(sealed.reply(mark)?)?;
            }
        }
    }
    Ok(replies)
}

/// The place of the first arrival at a node.
fn first_arrival(sealed: &Sealed, node: u16) -> Option<u32> {
    let net = sealed.net();
    let mut stands = [0; AGENTS as usize];
    let mut bound = [0; AGENTS as usize];
    for (place, kept) in sealed.log().iter().enumerate() {
        let Some(agent) = agent_of(&kept.event) else {
            continue;
        };
        let agent = usize::from(agent);
        if agent >= stands.len() {
            continue;
        }
        match (&kept.event, &kept.mark) {
            (
                Event::Tell {
                    command: Command::Depart { port },
                    ..
                },
                Some(Mark::Gone),
            ) => {
                let start = stands[agent];
                if start < net.nodes() && *port < net.degree(start) {
                    bound[agent] = net.far(start, *port).0;
                }
            }
            (Event::Deliver { .. }, Some(_)) => {
                stands[agent] = bound[agent];
                if stands[agent] == node {
                    return u32::try_from(place).ok();
                }
            }
            _ => (),
        }
    }
    None
}

/// Returns the expected reason why no twin has its black hole at a node.
fn refusal(sealed: &Sealed, node: u16) -> Option<TwinFault> {
    if node >= sealed.net().nodes() {
        return Some(TwinFault::Node);
    }
    if node == sealed.setup().home {
        return Some(TwinFault::Home);
    }
    if sealed.setup().holes.nodes().contains(&node) {
        return Some(TwinFault::Same);
    }
    let place = first_arrival(sealed, node)?;
    Some(TwinFault::Reached { place })
}

/// Returns whether the twin is refused as expected, or has its black hole at the node and gives each agent the same
/// replies.
fn is_twin_alike(alloc: Global, whole: &Sealed, node: u16) -> Result<bool, Fail> {
    let twin = match twin_of(alloc, whole, node) {
        Ok(twin) => twin,
        Err(fault) => return Ok(refusal(whole, node) == Some(fault)),
    };
    let twin = twin_played(whole, twin)?;
    for agent in 0..AGENTS {
        if replies_to(alloc, whole, agent)? != replies_to(alloc, &twin, agent)? {
            return Ok(false);
        }
    }
    Ok(refusal(whole, node).is_none() && twin.setup().holes.nodes().contains(&node))
}

#[test]
fn twins_look_alike(rt: HostRuntime) -> Result<(), Fail> {
    let mut twins: u32 = 0;
    for number in 0..MATCHES {
        let whole = played(rt.alloc(), &mut Dealer::new([4; 32], number))?;
        for node in 0..9 {
            assert!(rt; is_twin_alike(rt.alloc(), &whole, node)?);
            twins = twins.saturating_add(u32::from(refusal(&whole, node).is_none()));
        }
    }
    assert!(rt; twins > 100);
    Ok(())
}
