//! An exploration and drawn schedules find what they find with ample memory, or memory ran out.

use super::mark;
use crate::explorations::{Pair, Scout, draws, explorer};
use bhs_schedules::{ExploreFault, Finding};
use std::test::Fail;

#[test]
fn an_exploration_finds_the_same_or_wants_memory(rt: HostRuntime) -> Result<(), Fail> {
    let mut team = Pair {
        scout: Scout::Solves,
    };
    let mut explorer = explorer(rt.alloc(), &mut team)?;
    mark(rt.alloc())?;
    let explored = explorer.explore(&mut team, 100);
    mark(rt.alloc())?;
    match explored {
        Ok(explored) if matches!(explored.found, Finding::Solves(_)) => Ok(()),
        Err(ExploreFault::Memory) => Ok(()),
        _ => Err(Fail::from("something else was found")),
    }
}

#[test]
fn drawn_schedules_are_the_same_or_want_memory(rt: HostRuntime) -> Result<(), Fail> {
    let mut team = Pair {
        scout: Scout::Solves,
    };
    let mut explorer = explorer(rt.alloc(), &mut team)?;
    mark(rt.alloc())?;
    let drawn = explorer.draw(&mut team, draws(None));
    mark(rt.alloc())?;
    match drawn {
        Ok(drawn) if drawn.solved == 4 && drawn.failed == 0 => Ok(()),
        Err(ExploreFault::Memory) => Ok(()),
        _ => Err(Fail::from("something else was drawn")),
    }
}
