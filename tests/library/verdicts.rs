//! Verdicts on matches that have ended.

use super::played::played;
use bhs_referee::{Outcome, judge};
use std::alloc::Global;
use std::test::Fail;

/// What is played: the number of nodes, the black holes, the dark links, and the words of a row.
type Game = (u16, &'static [u16], &'static [(u16, u16)], &'static str);

/// Matches, with the outcome, the moves, and how many agents were lost.
const ROWS: [(Game, Outcome, u32, u16); 10] = [
    ((3, &[2], &[], "0e 0a1"), Outcome::Guess { node: 1 }, 0, 0),
    ((3, &[2], &[], "0e 0d0 0v 0a1"), Outcome::Solved, 1, 0),
    ((3, &[2], &[], "0e 0d0 0v 0a0"), Outcome::Wrong, 1, 0),
    ((3, &[2], &[], "0e"), Outcome::Silent, 0, 0),
    ((3, &[2], &[], ""), Outcome::Silent, 0, 0),
    ((3, &[], &[(0, 1)], "0e 0d1 0v"), Outcome::Silent, 1, 1),
    (
        (3, &[], &[(0, 1)], "0e 0d0 0v 0d1 0v 0a1"),
        Outcome::Solved,
        2,
        0,
    ),
    ((3, &[1, 2], &[], "0e 0a0"), Outcome::Silent, 0, 0),
    ((3, &[1, 2], &[], "0e 0a0 1e 1a1"), Outcome::Solved, 0, 0),
    (
        (4, &[1, 3], &[], "0e 0a0 1e 1a1"),
        Outcome::Guess { node: 2 },
        0,
        0,
    ),
];

#[test]
fn verdicts(rt: HostRuntime) -> Result<(), Fail> {
    for ((nodes, holes, dark, row), outcome, moves, lost) in ROWS {
        let verdict = judge(&played(rt.alloc(), nodes, holes, dark, row)?);
        let came = (verdict.outcome, verdict.moves, verdict.lost);
        assert_eq!(rt; came, (outcome, moves, lost), "{row}");
    }
    Ok(())
}
