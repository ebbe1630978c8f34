//! Explorations of the triangle: what all schedules come to, cycles, and drawn schedules.

use super::triangle::{network, setup};
use bhs_explore::{Explored, Explorer, SampleRequest, SampleResult};
use bhs_schedules::{ExploreFault, Finding, Latest, Step, Team, TeamAnswer, TeamFault};
use bhs_model::{Command, Mark, Objective, Scheduler, Text};
use bhs_world::World;
use std::alloc::Global;
use std::test::Fail;

/// How agent 0 goes on once it has entered.
#[derive(Clone, Copy)]
pub enum Scout {
    /// It goes to node 1, and accuses the link from there to the black hole.
    Solves,
    /// It enters again and again.
    EntersAgain,
    /// It looks again and again.
    LooksAgain,
    /// It goes to the black hole.
    IsLost,
    /// The scout moves to node 1 and back for ever.
    Shuttles,
}

/// A team of a scout and of an agent that stops at once.
#[derive(Drop)]
pub struct Pair {
    pub scout: Scout,
}

/// What the scout holds by its memory: it enters with 0, agent 1 has stopped with 1, and the scout goes on with 2.
fn step_of(scout: Scout, memory: u32) -> Step {
    match (scout, memory) {
        (_, 0) => Step::Says(Command::Enter),
        (Scout::Solves, 2) => Step::Says(Command::Depart { port: 0 }),
        (Scout::Solves, 4) => Step::Says(Command::Accuse { port: 1 }),
        (Scout::EntersAgain, 2) => Step::Says(Command::Enter),
        (Scout::LooksAgain, 2) => Step::Says(Command::Look),
        (Scout::IsLost, 2) => Step::Says(Command::Depart { port: 1 }),
        (Scout::Shuttles, 2) => Step::Says(Command::Depart { port: 0 }),
        (Scout::Shuttles, 4) => Step::Says(Command::Depart { port: 0 }),
        _ => Step::Stops,
    }
}

fn mind_of(scout: Scout, memory: u32) -> TeamAnswer {
    TeamAnswer {
        memory,
        step: step_of(scout, memory),
    }
}

impl Team for Pair {
    ghost answers = { λ old exchange new. Unit {0} };

    fn begin(&mut self, agent: u16) -> Result<TeamAnswer, TeamFault> {
        Ok(mind_of(self.scout, u32::from(agent)))
    }

    fn next(&mut self, before: u32, latest: Latest, _shown: &str) -> Result<TeamAnswer, TeamFault> {
        let after = match (before, latest) {
            (0, _) => 2,
            (2, Latest::Heard(Mark::Gone)) => 3,
            (2, _) => 2,
            (3, Latest::Heard(Mark::Here { .. } | Mark::Over)) => 4,
            (4, Latest::Heard(Mark::Gone)) => 3,
            (4, _) => 5,
            _ => return Err(TeamFault),
        };
        Ok(mind_of(self.scout, after))
    }
}

/// An exploration of the triangle, whose black hole is node 2.
pub fn explorer(alloc: Global, team: &mut Pair) -> Result<Explorer, Fail> {
    let world = World::new(alloc, network(alloc)?, setup(alloc)?)?;
    Ok(Explorer::new(alloc, world, Vec::new(alloc), 2, team)?)
}

pub fn explored(alloc: Global, scout: Scout) -> Result<Explored, Fail> {
    let mut team = Pair { scout };
    let mut explorer = explorer(alloc, &mut team)?;
    Ok(explorer.explore(&mut team, 100)?)
}

/// Four schedules of this seed.
pub fn draws(objective: Option<Objective>) -> SampleRequest {
    SampleRequest {
        schedules: 4,
        seed: 5,
        scheduler: Scheduler::Fair,
        objective,
        turns: 100,
    }
}

pub fn drawn(
    alloc: Global,
    scout: Scout,
    objective: Option<Objective>,
) -> Result<SampleResult, Fail> {
    let mut team = Pair { scout };
    let mut explorer = explorer(alloc, &mut team)?;
    Ok(explorer.draw(&mut team, draws(objective))?)
}

/// A team of agents that write at the home base. Agent 0 continues as `Scout::Solves` if it is the first to write, or
/// patient; otherwise it leaves. All other agents leave. A memory is an index of `stages`: the agent's stage, plus 10
/// for the other agents.
#[derive(Drop)]
pub struct Rivals {
    pub alloc: Global,
    pub stages: Vec<u32>,
    pub is_patient: bool,
}

impl Rivals {
    fn new(alloc: Global, is_patient: bool) -> Rivals {
        Rivals {
            alloc,
            stages: Vec::new(alloc),
            is_patient,
        }
    }

    fn answer_of(&mut self, stage: u32) -> Result<TeamAnswer, TeamFault> {
        let step = match stage {
            1 | 11 => Step::Says(Command::Write {
                expect: Text::empty(),
                put: Text::new(self.alloc, "here").map_err(|_| TeamFault)?,
            }),
            0 | 10 => Step::Says(Command::Enter),
            2 => Step::Says(Command::Depart { port: 0 }),
            4 => Step::Says(Command::Accuse { port: 1 }),
            7 | 12 | 17 => Step::Says(Command::Leave),
            _ => Step::Stops,
        };
        let known = self.stages.iter().position(|other| *other == stage);
        let memory = match known {
            Some(place) => place,
            None => self.stages.len(),
        };
        if known.is_none() {
            self.stages.push(stage).map_err(|_| TeamFault)?;
        }
        Ok(TeamAnswer {
            memory: memory as u32,
            step,
        })
    }
}

impl Team for Rivals {
    ghost answers = { λ old exchange new. Unit {0} };

    fn begin(&mut self, agent: u16) -> Result<TeamAnswer, TeamFault> {
        self.answer_of(u32::from(agent.min(1)) * 10)
    }

    fn next(&mut self, before: u32, latest: Latest, _shown: &str) -> Result<TeamAnswer, TeamFault> {
        let Some(stage) = self.stages.get(before as usize).copied() else {
            return Err(TeamFault);
        };
        let after = match latest {
            Latest::Heard(Mark::Changed { .. }) if !self.is_patient => 7,
            _ => stage % 10 + 1,
        };
        self.answer_of(stage / 10 * 10 + after)
    }
}

#[test]
fn agents_that_write_at_one_node_are_tried_in_both_orders(rt: HostRuntime) -> Result<(), Fail> {
    let alloc = rt.alloc();
    let mut team = Rivals::new(alloc, false);
    let world = World::new(alloc, network(alloc)?, setup(alloc)?)?;
    let mut explorer = Explorer::new(alloc, world, Vec::new(alloc), 2, &mut team)?;
    match explorer.explore(&mut team, 100)?.found {
        Finding::Fails { .. } => Ok(()),
        _ => Err(Fail::from("the order in which agent 1 writes first was left out")),
    }
}

#[test]
fn states_with_two_agents_exchanged_are_one(rt: HostRuntime) -> Result<(), Fail> {
    let alloc = rt.alloc();
    let mut team = Rivals::new(alloc, true);
    let mut setup = setup(alloc)?;
    setup.agents = 3;
    let world = World::new(alloc, network(alloc)?, setup)?;
    let mut explorer = Explorer::new(alloc, world, Vec::new(alloc), 2, &mut team)?;
    let explored = explorer.explore(&mut team, 1_000)?;
    assert_eq!(rt; explored.states, 21);
    match explored.found {
        Finding::Solves(_) => Ok(()),
        _ => Err(Fail::from("a schedule of three agents does not solve")),
    }
}

#[test]
fn what_agents_spend_goes_with_them(rt: HostRuntime) -> Result<(), Fail> {
    let alloc = rt.alloc();
    for agents in 2u16..5 {
        for quota in 2u16..4 {
            let mut team = Rivals::new(alloc, true);
            let mut setup = setup(alloc)?;
            (setup.agents, setup.quota) = (agents, quota);
            let world = World::new(alloc, network(alloc)?, setup)?;
            let mut explorer = Explorer::new(alloc, world, Vec::new(alloc), 2, &mut team)?;
            match explorer.explore(&mut team, 10_000)?.found {
                Finding::Solves(bounds) => {
                    assert_eq!(rt; (quota, bounds.commands.len()), (3, usize::from(agents)));
                    assert_eq!(rt; (bounds.commands[0], bounds.commands[1]), (3, 1));
                }
                Finding::Exceeds { agent, commands } => {
                    assert_eq!(rt; (quota, agent, commands), (2, 0, 3));
                }
                _ => return Err(Fail::from("a schedule does not solve")),
            }
        }
    }
    Ok(())
}

#[test]
fn every_schedule_solves(rt: HostRuntime) -> Result<(), Fail> {
    let explored = explored(rt.alloc(), Scout::Solves)?;
    assert_eq!(rt;
        (explored.states, explored.memories, explored.longest),
        (4, 6, 5)
    );
    match explored.found {
        Finding::Solves(bounds) => {
            assert_eq!(rt;
                (bounds.moves, bounds.lost, bounds.turns, bounds.wakeups),
                (1, 0, 4, 2)
            );
            assert_eq!(rt; bounds.commands.as_slice(), [2, 0].as_slice());
            Ok(())
        }
        _ => Err(Fail::from("not every schedule solves")),
    }
}

#[test]
fn visits_lead_to_the_same(rt: HostRuntime) -> Result<(), Fail> {
    let mut team = Pair {
        scout: Scout::Solves,
    };
    let mut explorer = explorer(rt.alloc(), &mut team)?;
    assert_eq!(rt; explorer.visit(&mut team, 100, 3)?, false);
    let visited = explorer.visited();
    assert_eq!(rt; (visited.states, visited.depth), (4, 5));
    assert!(rt; explorer.visit(&mut team, 100, 100)?);
    assert_eq!(rt; explorer.visited().depth, 0);
    match explorer.explore(&mut team, 100)?.found {
        Finding::Solves(bounds) => {
            assert_eq!(rt; bounds.turns, 4);
            Ok(())
        }
        _ => Err(Fail::from("not every schedule solves")),
    }
}

#[test]
fn a_search_of_few_states_ends(rt: HostRuntime) -> Result<(), Fail> {
    let mut team = Pair {
        scout: Scout::Solves,
    };
    let mut explorer = explorer(rt.alloc(), &mut team)?;
    match explorer.explore(&mut team, 2) {
        Err(ExploreFault::Many) => Ok(()),
        _ => Err(Fail::from("it went on")),
    }
}

#[test]
fn a_round_without_counted_commands_goes_on_for_ever(rt: HostRuntime) -> Result<(), Fail> {
    match explored(rt.alloc(), Scout::EntersAgain)?.found {
        Finding::Endless {
            schedule,
            cycle,
            is_fair,
        } => {
            assert_eq!(rt;
                (schedule.as_slice(), cycle.as_slice()),
                ([0].as_slice(), [0].as_slice())
            );
            assert!(rt; is_fair);
            Ok(())
        }
        _ => Err(Fail::from("no cycle was found")),
    }
}

#[test]
fn a_round_of_looks_spends_the_quota(rt: HostRuntime) -> Result<(), Fail> {
    match explored(rt.alloc(), Scout::LooksAgain)?.found {
        Finding::Exceeds { agent, commands } => {
            assert_eq!(rt; (agent, commands), (0, 11));
            Ok(())
        }
        _ => Err(Fail::from("the quota suffices")),
    }
}

#[test]
fn drawn_schedules_are_counted(rt: HostRuntime) -> Result<(), Fail> {
    for objective in [None, Some(Objective::Moves), Some(Objective::Lost)] {
        let drawn = drawn(rt.alloc(), Scout::Solves, objective)?;
        assert_eq!(rt; (drawn.solved, drawn.failed, drawn.turns), (4, 0, 16));
        assert_eq!(rt; drawn.moves.as_slice(), [(1, 4)].as_slice());
        assert_eq!(rt; drawn.lost.as_slice(), [(0, 4)].as_slice());
        match drawn.found {
            Finding::Comes { verdict, schedule } => {
                assert_eq!(rt; (verdict.moves, verdict.lost), (1, 0));
                assert_eq!(rt; schedule.as_slice(), [0, 0, 0, 0].as_slice());
            }
            _ => return Err(Fail::from("a schedule failed")),
        }
    }
    Ok(())
}

#[test]
fn a_departure_is_a_turn_of_the_schedule_that_fails(rt: HostRuntime) -> Result<(), Fail> {
    let explored = explored(rt.alloc(), Scout::IsLost)?;
    assert_eq!(rt; (explored.states, explored.longest), (2, 3));
    match explored.found {
        Finding::Fails { verdict, schedule } => {
            assert_eq!(rt; (verdict.moves, verdict.lost), (1, 1));
            assert_eq!(rt; schedule.as_slice(), [0, 0].as_slice());
            Ok(())
        }
        _ => Err(Fail::from("no schedule fails")),
    }
}

#[test]
fn a_round_of_moves_spends_the_quota(rt: HostRuntime) -> Result<(), Fail> {
    match explored(rt.alloc(), Scout::Shuttles)?.found {
        Finding::Exceeds { agent, commands } => {
            assert_eq!(rt; (agent, commands), (0, 11));
            Ok(())
        }
        _ => Err(Fail::from("the quota suffices")),
    }
}
