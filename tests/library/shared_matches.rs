//! Matches that threads share.

use bhs_deliveries::Held;
use bhs_shared_match::SharedMatch;
use bhs_match::Match;
use bhs_model::{DarkLinks, Holes, Setup};
use bhs_net::{Link, Net};
use bhs_time::ScheduleKind;
use std::alloc::Global;
use std::test::Fail;

/// The shared match of a match on the triangle, where nothing is held: black hole 2, whiteboards of 8 bytes.
pub fn shared_match(alloc: Global, game: u32, agents: u16, quota: u16) -> Result<SharedMatch, Fail> {
    let links = [(0, 0, 1, 0), (1, 1, 2, 0), (2, 1, 0, 1)].map(|(v, p, w, q)| Link { v, p, w, q });
    let net = Net::try_new(alloc, 3, &links)?;
    let held = Held::new(alloc, &net, &[])?;
    let setup = Setup {
        home: 0,
        holes: Holes::from(vec![in alloc; 2]?),
        dark: DarkLinks::from(Vec::new(alloc)),
        agents,
        quota,
        board: 8,
    };
    let play = Match::new(alloc, net, setup)?;
    Ok(SharedMatch::new(alloc, game, play, held, ScheduleKind::Adaptive)?)
}
