//! What tests/port/modules.py and tests/port/teams.py ask of crates as plain Rust (tools/port).
//!
//! `searching modules` reads names of files, and prints what comes of each as a module of an agent whose commands all
//! succeed. `searching teams` reads matches whose agents its host plays, and prints what is found of all schedules.
use bhs_explore::{Explored, Explorer};
use bhs_schedules::{Failure, Finding, Latest, Step, Team, TeamAnswer, TeamFault};
use bhs_model::{Command, DarkLinks, Holes, Mark, Setup, Text};
use bhs_net::{Link, Net};
use bhs_referee::{Outcome, Verdict};
use bhs_wasm::{HostFunction, Interpreter, Progress};
use bhs_wasm_read::{module_of, ModuleFault};
use bhs_world::World;
use rattle::alloc::Global;
use rattle::collections::Vec as List;
use std::io::{BufRead, Write};

/// How many instructions an agent executes from one command to the next, and how many commands it may say.
const FUEL: u32 = 1_000_000;
const COMMANDS: u32 = 50;
const ARGUMENTS: [u32; 2] = [3, 0xffff_fff0];
/// The states that are visited at most.
const STATES: u32 = 1_000_000;

fn main() {
    match std::env::args().nth(1).as_deref() {
        Some("modules") => modules(),
        Some("teams") => teams(),
        _ => std::process::exit(2),
    }
}

/// The next line of the input, without its line feed.
fn next_line() -> Option<String> {
    let line = std::io::stdin().lock().lines().next()?;
    Some(line.unwrap())
}

fn modules() {
    while let Some(file) = next_line() {
        println!("{}", come_of(&std::fs::read(file).unwrap()).join("\n"));
        println!("====");
    }
}

/// What comes of a file: why it is refused, or what its agent says, how it ends, and what its memory is then.
fn come_of(file: &[u8]) -> Vec<String> {
    let program = match module_of(Global, file) {
        Ok(program) => program,
        Err(ModuleFault::Head) => return vec!["refused Head".to_string()],
        Err(ModuleFault::Inside { kind, .. }) => return vec![format!("refused {kind:?}")],
    };
    let mut found = Vec::new();
    let mut agent = Interpreter::new(Global);
    let mut progress = agent.instantiate(&program, &ARGUMENTS).unwrap();
    for number in 1.. {
        if progress == Progress::Continues {
            progress = agent.run(&program, FUEL).unwrap();
        }
        let Progress::Waits(function) = progress else {
            break;
        };
        if number > COMMANDS {
            break;
        }
        found.push(said(&agent, function));
        agent.last_reply.ports = number;
        agent.last_reply.came = number + 1;
        agent.last_reply.board = List::from_std(Global, format!("board {number}").into_bytes());
        progress = agent.answer(function.parameters(), number * 7 % 11).unwrap();
    }
    found.push(match progress {
        Progress::Ends => format!("ends {} {}", agent.pages, digest(&agent.memory)),
        Progress::Traps if agent.is_out_of_fuel => "fuel".to_string(),
        Progress::Traps => "traps".to_string(),
        _ => "commands".to_string(),
    });
    found
}

fn said(agent: &Interpreter, function: HostFunction) -> String {
    let operands = (0..function.parameters() as usize).rev();
    let operands: Vec<String> = operands.map(|depth| agent.operand(depth).to_string()).collect();
    format!("{function:?} {}", operands.join(" "))
}

/// FNV-1a of a memory, without the zeros at its end.
fn digest(memory: &[u8]) -> u32 {
    let length = memory
        .iter()
        .rposition(|byte| *byte != 0)
        .map_or(0, |last| last + 1);
    memory[..length].iter().fold(0x811c_9dc5, |sum, byte| {
        (sum ^ u32::from(*byte)).wrapping_mul(0x0100_0193)
    })
}

/// Agents that the host plays: it is asked what they do, line by line.
struct Hosted;

fn asked(question: &str) -> Option<String> {
    println!("{question}");
    std::io::stdout().flush().ok()?;
    next_line()
}

impl Hosted {
    fn answer(&self, question: &str) -> Result<TeamAnswer, TeamFault> {
        let answer = asked(question).ok_or(TeamFault)?;
        let words: Vec<&str> = answer.split(' ').collect();
        let text = |word: &str| Text::new(Global, word.trim_start_matches('-')).unwrap();
        let port = |word: &str| word.parse().unwrap();
        let step = match words[1..] {
            ["sleeps"] => Step::Sleeps,
            ["stops"] => Step::Stops,
            ["fails"] => Step::Fails,
            ["enter"] => Step::Says(Command::Enter),
            ["look"] => Step::Says(Command::Look),
            ["leave"] => Step::Says(Command::Leave),
            ["bad"] => Step::Says(Command::Bad),
            ["depart", word] => Step::Says(Command::Depart { port: port(word) }),
            ["accuse", word] => Step::Says(Command::Accuse { port: port(word) }),
            ["write", expect, put] => Step::Says(Command::Write {
                expect: text(expect),
                put: text(put),
            }),
            _ => return Err(TeamFault),
        };
        Ok(TeamAnswer {
            memory: words[0].parse().unwrap(),
            step,
        })
    }
}

impl Team for Hosted {
    fn begin(&mut self, agent: u16) -> Result<TeamAnswer, TeamFault> {
        self.answer(&format!("begin {agent}"))
    }

    fn next(&mut self, before: u32, latest: Latest, shown: &str) -> Result<TeamAnswer, TeamFault> {
        let heard = match latest {
            Latest::Woke => "woke".to_string(),
            Latest::Heard(Mark::Here { ports, came, .. }) => {
                let came = came.map_or("-".to_string(), |came| came.to_string());
                format!("here {ports} {came} -{shown}")
            }
            Latest::Heard(Mark::Written) => "written".to_string(),
            Latest::Heard(Mark::Changed { .. }) => format!("changed -{shown}"),
            Latest::Heard(Mark::Gone) => "gone".to_string(),
            Latest::Heard(Mark::Noted) => "noted".to_string(),
            Latest::Heard(Mark::Bye) => "bye".to_string(),
            Latest::Heard(Mark::Over) => "over".to_string(),
            Latest::Heard(Mark::No(why)) => format!("no {why:?}"),
        };
        self.answer(&format!("next {before} {heard}"))
    }
}

/// Numbers on a line, in groups that `/` separates: nodes, home, agents, quota, whiteboard and spurious wake-ups;
/// links; black holes; dark links; held links.
fn teams() {
    while let Some(line) = next_line() {
        let groups: Vec<Vec<u16>> = line.split('/').map(numbers).collect();
        match explored(&groups) {
            Ok(explored) => println!("found {} states {}", text_of(&explored.found), explored.states),
            Err(fault) => println!("found {fault}"),
        }
        std::io::stdout().flush().unwrap();
    }
}

fn numbers(group: &str) -> Vec<u16> {
    group
        .split_whitespace()
        .map(|word| word.parse().unwrap())
        .collect()
}

fn ends(group: &[u16]) -> List<(u16, u16)> {
    List::from_std(Global, group.chunks(2).map(|end| (end[0], end[1])).collect())
}

fn explored(groups: &[Vec<u16>]) -> Result<Explored, String> {
    let [head, links, holes, dark, held] = groups else {
        return Err("another number of groups".to_string());
    };
    let &[nodes, home, agents, quota, board, wakeups] = head.as_slice() else {
        return Err("another number of numbers".to_string());
    };
    let links: Vec<Link> = links
        .chunks(4)
        .map(|link| Link {
            v: link[0],
            p: link[1],
            w: link[2],
            q: link[3],
        })
        .collect();
    let net = Net::try_new(Global, nodes, &links).map_err(|fault| format!("{fault:?}"))?;
    let setup = Setup {
        home,
        holes: Holes::from(List::from_std(Global, holes.clone())),
        dark: DarkLinks::from(ends(dark)),
        agents,
        quota,
        board,
    };
    let world = World::new(Global, net, setup).map_err(|fault| format!("{fault:?}"))?;
    let mut team = Hosted;
    Explorer::new(Global, world, ends(held), wakeups, &mut team)
        .and_then(|mut explorer| explorer.explore(&mut team, STATES))
        .map_err(|fault| format!("{fault:?}"))
}

fn listed(numbers: &[u16]) -> String {
    numbers.iter().map(u16::to_string).collect::<Vec<_>>().join(",")
}

fn verdict_of(verdict: &Verdict) -> String {
    let outcome = match verdict.outcome {
        Outcome::Solved => "solved",
        Outcome::Guess { .. } => "guess",
        Outcome::Unfinished => "unfinished",
        Outcome::Silent => "silent",
        Outcome::Wrong => "wrong",
    };
    format!("{outcome} {} {}", verdict.moves, verdict.lost)
}

fn text_of(found: &Finding) -> String {
    match found {
        Finding::Solves(bounds) => {
            let commands: Vec<String> = bounds.commands.iter().map(u32::to_string).collect();
            format!(
                "solves {} {} {} {}",
                bounds.moves,
                bounds.lost,
                bounds.turns,
                commands.join(",")
            )
        }
        Finding::Comes { verdict, schedule } => format!("comes {} {}", verdict_of(verdict), listed(schedule)),
        Finding::Fails { verdict, schedule } => format!("fails {} {}", verdict_of(verdict), listed(schedule)),
        Finding::Breaks {
            agent,
            failure,
            schedule,
        } => {
            let failure = match failure {
                Failure::Program => "program",
                Failure::Outside => "outside",
                Failure::Close => "close",
                Failure::Asleep => "asleep",
            };
            format!("breaks {agent} {failure} {}", listed(schedule))
        }
        Finding::Endless {
            schedule,
            cycle,
            is_fair,
        } => {
            format!("endless {is_fair} {} {}", listed(schedule), listed(cycle))
        }
        Finding::Exceeds { agent, commands } => format!("exceeds {agent} {commands}"),
    }
}
