//! Causal pasts, parts and twins of matches that have ended.

use super::played::{played, twin_played};
use bhs_model::{Reply, Text};
use bhs_referee::{Outcome, judge};
use bhs_view::{RestrictFault, TwinFault, cut_and_looks, cut_of, restrict, twin_of};
use std::alloc::Global;
use std::test::Fail;

/// A search: b writes at node 1 and a looks at the home base; then a goes to node 1 as well, and b on.
const SEARCH: &str = "0e 1e 1d0 1v 1w 0l 0d0 0v 1d0";

/// The same without the way to node 1.
const LOOK: &str = "0e 1e 1d0 1v 1w 0l";

/// Whether the cut of an agent in a row is these places, after this many looks.
fn saw(alloc: Global, row: &str, agent: u16, places: &[u32], looks: u32) -> Result<bool, Fail> {
    let sealed = played(alloc, 3, &[2], &[], row)?;
    let found = cut_and_looks(alloc, &sealed, agent)?;
    let cut = cut_of(alloc, &sealed, agent)?;
    Ok(cut.as_slice() == places && found.0.as_slice() == places && found.1 == looks)
}

#[test]
fn what_an_agent_saw(rt: HostRuntime) -> Result<(), Fail> {
    let alloc = rt.alloc();
    assert!(rt; saw(alloc, LOOK, 0, &[0, 5], 7)?);
    assert!(rt; saw(alloc, SEARCH, 0, &[0, 1, 2, 3, 4, 5, 6, 7], 10)?);
    assert!(rt; saw(alloc, SEARCH, 2, &[], 0)?);
    Ok(())
}

/// What became of a row that was played at these places alone: how many events its log has, or why it was not played.
fn part(alloc: Global, row: &str, places: &[u32]) -> Result<Result<usize, RestrictFault>, Fail> {
    let sealed = played(alloc, 3, &[2], &[], row)?;
    match restrict(alloc, &sealed, places) {
        Ok(part) => Ok(Ok(part.log().len())),
        Err(fault) => Ok(Err(fault)),
    }
}

#[test]
fn closed_sets(rt: HostRuntime) -> Result<(), Fail> {
    let alloc = rt.alloc();
    assert_eq!(rt; part(alloc, LOOK, &[0, 5])?, Ok(3));
    assert_eq!(rt; part(alloc, LOOK, &[0, 5, 6])?, Ok(3));
    let lacks_1 = Err(RestrictFault::NotClosed { place: 1 });
    assert_eq!(rt; part(alloc, LOOK, &[4])?, lacks_1);
    let descends = Err(RestrictFault::Places { index: 1 });
    assert_eq!(rt; part(alloc, LOOK, &[5, 0])?, descends);
    assert_eq!(rt; part(alloc, LOOK, &[0, 7])?, descends);
    let lacks_4 = Err(RestrictFault::NotClosed { place: 4 });
    assert_eq!(rt; part(alloc, SEARCH, &[0, 5, 6, 7])?, lacks_4);
    Ok(())
}

/// Returns the answers to the events of a row's part, in order; None for the close.
fn answers(alloc: Global, row: &str, places: &[u32]) -> Result<Vec<Option<Reply>>, Fail> {
    let sealed = played(alloc, 3, &[2], &[], row)?;
    let part = match restrict(alloc, &sealed, places) {
        Ok(part) => part,
        Err(_) => return Err(Fail::from("a closed set is refused")),
    };
    let mut answers = Vec::new(alloc);
    for kept in part.log() {
        answers.push(match &kept.mark {
            Some(mark) => Some(part.reply(mark)?),
            None => None,
        })?;
    }
    Ok(answers)
}

fn here(alloc: Global, came: Option<u16>, board: &str) -> Result<Option<Reply>, Fail> {
    let board = Text::new(alloc, board)?;
    Ok(Some(Reply::Here {
        ports: 2,
        came,
        board,
    }))
}

/// Agent 0 is answered by itself what it was answered beside agent 1, whose Write it sees.
#[test]
fn what_is_played_alone_is_answered_alike(rt: HostRuntime) -> Result<(), Fail> {
    let alloc = rt.alloc();
    let alone = vec![in alloc; here(alloc, None, "")?, here(alloc, None, "")?, None]?;
    assert_eq!(rt; answers(alloc, LOOK, &[0, 5])?, alone);
    let both = vec![in alloc;
        here(alloc, None, "")?,
        here(alloc, None, "")?,
        Some(Reply::Gone),
        here(alloc, Some(0), "")?,
        Some(Reply::Written),
        here(alloc, None, "")?,
        Some(Reply::Gone),
        here(alloc, Some(0), "b")?,
        None,
    ]?;
    assert_eq!(rt; answers(alloc, SEARCH, &[0, 1, 2, 3, 4, 5, 6, 7])?, both);
    Ok(())
}

/// What is looked at of a twin: the verdict on it, its least black hole, and how many events its log has.
#[derive(Debug, PartialEq, Eq, Drop)]
struct Shown {
    outcome: Outcome,
    hole: Option<u16>,
    events: usize,
}

/// Returns the twin of a row with the black hole at this node, or the reason why no twin exists.
fn twin(
    alloc: Global,
    nodes: u16,
    holes: &[u16],
    row: &str,
    node: u16,
) -> Result<Result<Shown, TwinFault>, Fail> {
    let whole = played(alloc, nodes, holes, &[], row)?;
    match twin_of(alloc, &whole, node) {
        Ok(twin) => {
            let twin = twin_played(&whole, twin)?;
            Ok(Ok(Shown {
                outcome: judge(&twin).outcome,
                hole: twin.setup().holes.nodes().first().copied(),
                events: twin.log().len(),
            }))
        }
        Err(fault) => Ok(Err(fault)),
    }
}

fn is_twin(outcome: Outcome, hole: u16, events: usize) -> Result<Shown, TwinFault> {
    Ok(Shown {
        outcome,
        hole: Some(hole),
        events,
    })
}

#[test]
fn twins(rt: HostRuntime) -> Result<(), Fail> {
    let alloc = rt.alloc();
    let reached = "0e 0d0 0v";
    assert_eq!(rt; twin(alloc, 3, &[2], reached, 3)?, Err(TwinFault::Node));
    assert_eq!(rt; twin(alloc, 3, &[2], reached, 0)?, Err(TwinFault::Home));
    assert_eq!(rt; twin(alloc, 3, &[2], reached, 2)?, Err(TwinFault::Same));
    let at_2 = Err(TwinFault::Reached { place: 2 });
    assert_eq!(rt; twin(alloc, 3, &[2], reached, 1)?, at_2);
    assert_eq!(rt;
        twin(alloc, 3, &[2], "0e 0a1", 1)?,
        is_twin(Outcome::Wrong, 1, 3)
    );
    assert_eq!(rt;
        twin(alloc, 3, &[2], "0e 0d1 0v 0l", 1)?,
        is_twin(Outcome::Silent, 1, 4)
    );
    let both = "0e 0a0 1e 1a1";
    assert_eq!(rt; twin(alloc, 4, &[1, 3], both, 3)?, Err(TwinFault::Same));
    assert_eq!(rt;
        twin(alloc, 4, &[1, 3], both, 2)?,
        is_twin(Outcome::Wrong, 2, 5)
    );
    Ok(())
}
