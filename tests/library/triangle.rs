//! The triangle that most tests play on.

use bhs_model::{DarkLinks, Holes, Setup};
use bhs_net::{Link, Net};
use std::alloc::{AllocError, Global};
use std::test::Fail;

/// Two agents, and the black hole at node 2.
pub fn setup(alloc: Global) -> Result<Setup, AllocError> {
    Ok(Setup {
        home: 0,
        holes: Holes::from(vec![in alloc; 2]?),
        dark: DarkLinks::from(Vec::new(alloc)),
        agents: 2,
        quota: 10,
        board: 8,
    })
}

pub fn network(alloc: Global) -> Result<Net, Fail> {
    let links = [(0, 0, 1, 0), (1, 1, 2, 0), (2, 1, 0, 1)].map(|(v, p, w, q)| Link { v, p, w, q });
    Ok(Net::try_new(alloc, 3, &links)?)
}
