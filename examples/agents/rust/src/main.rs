//! Searches a ring with two agents that know its number of nodes.
//!
//!     careful HOST PORT KEY NODES
//!     ARENA_HOST=HOST ARENA_PORT=PORT ARENA_KEY=KEY careful NODES
//!
//! Start it twice, with the keys of both agents. The agent that writes first at the home base explores the side of
//! port 0, the other the side of port 1. Each goes out to the next unexplored node of its side and comes back, and
//! writes at the home base how many nodes of each side are safe, as "3 1". Once one node is left, that is the black
//! hole.

#[allow(dead_code)]
mod client;
#[cfg(test)]
mod test;

use client::{join, Agent, Here, Stop};
use std::env;
use std::process::ExitCode;

fn safe_on(board: &str) -> [u64; 2] {
    let mut numbers = board.split(' ').map(|number| number.parse().unwrap_or(0));
    [numbers.next().unwrap_or(0), numbers.next().unwrap_or(0)]
}

fn board_of(safe: [u64; 2]) -> String {
    format!("{} {}", safe[0], safe[1])
}

/// The side of this agent, and what stands at the home base then.
fn choose_side(agent: &mut Agent, home: Here) -> Result<(usize, String), Stop> {
    if !home.board.is_empty() {
        return Ok((1, home.board));
    }
    let swap = agent.write("", &board_of([0, 0]))?;
    Ok((if swap.written { 0 } else { 1 }, swap.board))
}

/// The port by which the agent came.
fn back(here: &Here) -> u64 {
    here.came.expect("an agent that has arrived came by a port")
}

/// Goes on in one direction over this many links, at least one.
fn walk(agent: &mut Agent, port: u64, links: u64) -> Result<Here, Stop> {
    let mut here = agent.depart(port)?;
    for _ in 1..links {
        here = agent.depart(1 - back(&here))?;
    }
    Ok(here)
}

/// Writes how many nodes of this side are safe; what the other agent wrote stays.
fn note(agent: &mut Agent, side: usize, mine: u64, mut board: String) -> Result<String, Stop> {
    loop {
        let mut safe = safe_on(&board);
        safe[side] = mine;
        let swap = agent.write(&board, &board_of(safe))?;
        board = swap.board;
        if swap.written {
            return Ok(board);
        }
    }
}

/// Searches until the agent has accused.
fn search(agent: &mut Agent, home: Here, nodes: u64) -> Result<(), Stop> {
    let (side, mut board) = choose_side(agent, home)?;
    let mut mine = 0;
    loop {
        let theirs = safe_on(&board)[1 - side];
        let ahead = if mine == 0 { side as u64 } else { 1 - back(&walk(agent, side as u64, mine)?) };
        if mine + theirs + 2 == nodes {
            return agent.accuse(ahead);
        }
        let found = agent.depart(ahead)?;
        mine += 1;
        let home = walk(agent, back(&found), mine)?;
        board = note(agent, side, mine, home.board)?;
    }
}

/// HOST, PORT, KEY and NODES. Of the first three, those that are not given are taken from the environment.
fn words_of(given: Vec<String>) -> Vec<String> {
    if given.len() != 1 {
        return given;
    }
    let known = |name: &str, otherwise: &str| env::var(name).unwrap_or_else(|_| otherwise.to_string());
    vec![known("ARENA_HOST", "127.0.0.1"), known("ARENA_PORT", "4000"), known("ARENA_KEY", ""), given[0].clone()]
}

fn main() -> ExitCode {
    let words = words_of(env::args().skip(1).collect());
    let [host, port, key, nodes] = words.as_slice() else {
        eprintln!("usage: careful HOST PORT KEY NODES");
        return ExitCode::from(2);
    };
    let nodes = nodes.parse().unwrap_or(0);
    let searched = join(&format!("{host}:{port}"), key).and_then(|(mut agent, home)| search(&mut agent, home, nodes));
    match searched {
        Ok(()) => ExitCode::SUCCESS,
        Err(stop) => {
            eprintln!("{stop}");
            ExitCode::from(if matches!(stop, Stop::Over) { 0 } else { 1 })
        }
    }
}
