//! Matches that are played by words.

use bhs_match::{Match, Sealed};
use bhs_model::{Command, DarkLinks, Event, Holes, Setup, Text};
use bhs_net::{Link, Net};
use bhs_view::Twin;
use std::alloc::Global;
use std::test::Fail;

const TRIANGLE: [(u16, u16, u16, u16); 3] = [(0, 0, 1, 0), (1, 1, 2, 0), (2, 1, 0, 1)];

const RING: [(u16, u16, u16, u16); 4] = [(0, 0, 1, 0), (1, 1, 2, 0), (2, 1, 3, 0), (3, 1, 0, 1)];

/// The word of a command.
pub fn word_of(command: &Command) -> &'static str {
    match command {
        Command::Enter => "enter",
        Command::Look => "look",
        Command::Write { .. } => "write",
        Command::Depart { .. } => "depart",
        Command::Accuse { .. } => "accuse",
        Command::Leave => "leave",
        Command::Bad => "bad",
    }
}

/// A match of two agents from node 0 of the triangle, or of the ring of four nodes, after the words of a row and a
/// close. Each word is an agent's number and `e` for enter, `l` for look, `w` for a write, `v` for a Deliver, or `d` or
/// `a` with a port for depart or accuse.
pub fn played(
    alloc: Global,
    nodes: u16,
    holes: &[u16],
    dark: &[(u16, u16)],
    row: &str,
) -> Result<Sealed, Fail> {
    let links: &[(u16, u16, u16, u16)] = if nodes == 4 { &RING } else { &TRIANGLE };
    let mut list = Vec::new(alloc);
    for (v, p, w, q) in links {
        list.push(Link {
            v: *v,
            p: *p,
            w: *w,
            q: *q,
        })?;
    }
    let setup = Setup {
        home: 0,
        holes: Holes::from(Vec::from_slice(alloc, holes)?),
        dark: DarkLinks::from(Vec::from_slice(alloc, dark)?),
        agents: 2,
        quota: 10,
        board: 8,
    };
    let mut game = Match::new(alloc, Net::try_new(alloc, nodes, &list)?, setup)?;
    for word in row.split(' ').filter(|word| !word.is_empty()) {
        game.apply(event(alloc, word.as_bytes())?);
    }
    game.apply(Event::Close);
    game.sealed()
        .map_err(|_| Fail::from("a match that goes on"))
}

/// A twin of a match, once what is left of the match has happened in it.
pub fn twin_played(whole: &Sealed, twin: Twin) -> Result<Sealed, Fail> {
    let Twin { start, left } = twin;
    let mut game = start;
    for (kept, is_left) in whole.log().iter().zip(&left) {
        if *is_left {
            game.apply(kept.event.try_clone()?);
        }
    }
    game.sealed()
        .map_err(|_| Fail::from("a match that goes on"))
}

fn event(alloc: Global, word: &[u8]) -> Result<Event, Fail> {
    let agent = digit(word, 0);
    let command = match word.get(1) {
        Some(b'e') => Command::Enter,
        Some(b'l') => Command::Look,
        Some(b'w') => Command::Write {
            expect: Text::empty(),
            put: Text::new(alloc, "b")?,
        },
        Some(b'd') => Command::Depart {
            port: digit(word, 2),
        },
        Some(b'a') => Command::Accuse {
            port: digit(word, 2),
        },
        _ => return Ok(Event::Deliver { agent }),
    };
    Ok(Event::Tell { agent, command })
}

fn digit(word: &[u8], index: usize) -> u16 {
    match word.get(index) {
        Some(digit) if digit.is_ascii_digit() => u16::from(*digit - b'0'),
        _ => 0,
    }
}
