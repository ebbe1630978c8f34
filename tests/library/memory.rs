//! Requests for memory that are refused. Here each is granted; `tests/hostile/refusals.py` runs these tests again, each
//! time with another request refused. Two marks stand round each call that is tested: if a request between them is
//! refused, the test passes. A test may allocate before the first mark and after the second one.

mod again;
mod commands;
mod exploring;
mod lent;
mod playing;
mod wanting;

use super::triangle::setup;
use bhs_deliveries::Held;
use bhs_files::read_network;
use bhs_match::Match;
use bhs_model::{Command, Text};
use std::alloc::{AllocError, Global};
use std::test::Fail;

/// To the harness a request for this many bytes is a mark: the call that is tested begins, or has ended.
const MARK: usize = 1_048_573;

fn mark(alloc: Global) -> Result<(), Fail> {
    let mut mark = Vec::with_capacity(alloc, MARK)?;
    mark.push(0u8)?;
    if mark.len() == 1 {
        Ok(())
    } else {
        Err(Fail::from("no mark"))
    }
}

const TRIANGLE: &str = "version = 1
nodes = 3
links = [[0,0,1,0],[1,1,2,0],[2,1,0,1]]
";

/// A match of two agents on the triangle, with the black hole at node 2, and the links that are held in it.
fn triangle(alloc: Global) -> Option<(Match, Held)> {
    let net = read_network(alloc, TRIANGLE).ok()?;
    let held = Held::new(alloc, &net, &[]).ok()?;
    Some((Match::new(alloc, net, setup(alloc).ok()?).ok()?, held))
}

fn write(alloc: Global) -> Result<Command, AllocError> {
    Ok(Command::Write {
        expect: Text::empty(),
        put: Text::new(alloc, "ab")?,
    })
}
