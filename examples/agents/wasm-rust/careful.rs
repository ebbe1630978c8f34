//! Searches a ring with two agents that know its number of nodes, which is the module's argument.
//!
//! The agent that writes first at the home base explores the side of port 0, the other the side of port 1. Each goes
//! out to the next unexplored node of its side and comes back, and writes at the home base how many nodes of each side
//! are safe, as "3 1". Once one node is left, that is the black hole.
#![no_std]

mod arena;

use arena::Reply;

const BOARD: usize = 16;

/// The match is over, or the agent has used its commands.
struct Ended;

struct Search {
    /// The port at the home base behind which this agent explores.
    side: i32,
    /// How many nodes of this side are safe.
    mine: i32,
    /// How many nodes of the other side are safe, as it stood at the home base.
    theirs: i32,
}

fn want(wanted: Reply, reply: Reply) -> Result<(), Ended> {
    if reply == wanted {
        Ok(())
    } else {
        Err(Ended)
    }
}

/// The numbers that a text says: how many nodes are safe on the side of port 0, and on the side of port 1.
fn numbers_in(text: &[u8]) -> (i32, i32) {
    let mut words = text.split(|byte| *byte == b' ').map(|word| {
        word.iter().fold(0, |number, digit| 10 * number + i32::from(digit.wrapping_sub(b'0')))
    });
    (words.next().unwrap_or(0), words.next().unwrap_or(0))
}

/// Writes the digits of a number, and answers where the text goes on.
fn put_number(buffer: &mut [u8; BOARD], mut at: usize, number: i32) -> usize {
    if number >= 10 {
        at = put_number(buffer, at, number / 10);
    }
    if let Some(byte) = buffer.get_mut(at) {
        *byte = b'0' + (number % 10) as u8;
    }
    at + 1
}

impl Search {
    fn numbers(&self) -> (i32, i32) {
        if self.side == 0 {
            (self.mine, self.theirs)
        } else {
            (self.theirs, self.mine)
        }
    }

    /// Writes at the home base how many nodes of each side are safe, if it shows what the last reply showed.
    fn write(&mut self) -> Reply {
        let (mut shown, mut put) = ([0; BOARD], [0; BOARD]);
        let expect = arena::board(&mut shown);
        let (right, left) = numbers_in(expect);
        self.theirs = if self.side == 0 { left } else { right };
        let (right, left) = self.numbers();
        let at = put_number(&mut put, 0, right);
        if let Some(byte) = put.get_mut(at) {
            *byte = b' ';
        }
        let end = put_number(&mut put, at + 1, left);
        arena::write(expect, put.get(..end).unwrap_or(&[]))
    }

    /// Chooses the side of port 0, unless the other agent has chosen it before.
    fn choose_side(&mut self) -> Result<(), Ended> {
        let mut shown = [0; BOARD];
        let reply = if arena::board(&mut shown).is_empty() { self.write() } else { Reply::Changed };
        if reply == Reply::Changed {
            self.side = 1;
            self.theirs = numbers_in(arena::board(&mut shown)).0;
            return Ok(());
        }
        want(Reply::Written, reply)
    }

    /// Writes how many nodes of this side are safe; what the other agent wrote stays.
    fn note(&mut self) -> Result<(), Ended> {
        loop {
            match self.write() {
                Reply::Changed => {}
                reply => return want(Reply::Written, reply),
            }
        }
    }

    fn search(&mut self, nodes: i32) -> Result<(), Ended> {
        want(Reply::Here, arena::enter())?;
        self.choose_side()?;
        loop {
            walk(self.side, self.mine)?;
            let ahead = if self.mine > 0 { 1 - arena::came() } else { self.side };
            if self.mine + self.theirs == nodes - 2 {
                return want(Reply::Noted, arena::accuse(ahead));
            }
            walk(ahead, 1)?;
            self.mine += 1;
            walk(arena::came(), self.mine)?;
            self.note()?;
        }
    }
}

/// Goes on in one direction over this many links.
fn walk(mut port: i32, links: i32) -> Result<(), Ended> {
    for _ in 0..links {
        want(Reply::Here, arena::depart(port))?;
        port = 1 - arena::came();
    }
    Ok(())
}

#[no_mangle]
pub extern "C" fn run() {
    let mut search = Search { side: 0, mine: 0, theirs: 0 };
    let _ = search.search(arena::argument(0));
}
