//! Calls that are made again after memory ran out: the second call answers what ample memory answers, and what is lent
//! has all that it had. What a call takes over is made anew for the second one.

use super::{TRIANGLE, mark, triangle, write};
use bhs_tournament::assemble;
use bhs_deliveries::Held;
use bhs_files::{FileFault, read_network, read_tournament};
use bhs_setups::Lineup;
use bhs_shared_match::{Answer, SharedMatch, NoHooks, Pass};
use bhs_match::{Match, Sealed};
use bhs_model::{Command, Reply, Text};
use bhs_net::{Memory, Net};
use bhs_replay::{ReplayFault, WritingFault, read_replay, write_part, write_replay};
use bhs_time::ScheduleKind;
use bhs_view::{RestrictFault, TwinFault, cut_of, restrict, twin_of};
use std::alloc::{AllocError, Global};
use std::process::Abort;
use std::sync::Wait;
use std::test::Fail;

const TOURNAMENT: &str = "version = 2
seed = \"0000000000000000000000000000000000000000000000000000000000000000\"
[[match]]
team = \"red\"
network = \"tri.toml\"
home = 0
holes = [2]
quota = 10
board = 8
keys = [\"ka\", \"kb\"]
held = [[0, 1]]
";

/// Agent 1 writes at the next node while agent 0 looks at the home base.
const PLAYED: &str = "{\"agents\":2,\"board\":8,\"dark\":[],\"holes\":[2],\
    \"home\":0,\"links\":[[0,0,1,0],[0,1,2,1],[1,1,2,0]],\"nodes\":3,\"quota\":10,\"replay\":2}
{\"agent\":0,\"do\":\"enter\",\"reply\":{\"board\":\"\",\"from\":null,\"ok\":\"here\",\"ports\":2}}
{\"agent\":1,\"do\":\"enter\",\"reply\":{\"board\":\"\",\"from\":null,\"ok\":\"here\",\"ports\":2}}
{\"agent\":1,\"do\":\"depart\",\"port\":0,\"reply\":{\"ok\":\"gone\"}}
{\"agent\":1,\"do\":\"deliver\",\"reply\":{\"board\":\"\",\"from\":0,\"ok\":\"here\",\"ports\":2}}
{\"agent\":1,\"do\":\"write\",\"expect\":\"\",\"put\":\"b\",\"reply\":{\"ok\":\"written\"}}
{\"agent\":0,\"do\":\"look\",\"reply\":{\"board\":\"\",\"from\":null,\"ok\":\"here\",\"ports\":2}}
{\"do\":\"close\",\"reply\":null}
{\"end\":7}
";

/// Agent 0 accuses a port that may be the right one.
const ACCUSED: &str = "{\"agents\":2,\"board\":8,\"dark\":[],\"holes\":[2],\
    \"home\":0,\"links\":[[0,0,1,0],[0,1,2,1],[1,1,2,0]],\"nodes\":3,\"quota\":10,\"replay\":2}
{\"agent\":0,\"do\":\"enter\",\"reply\":{\"board\":\"\",\"from\":null,\"ok\":\"here\",\"ports\":2}}
{\"agent\":0,\"do\":\"accuse\",\"port\":1,\"reply\":{\"ok\":\"noted\"}}
{\"do\":\"close\",\"reply\":null}
{\"end\":3}
";

/// Returns the answer of a call, which is repeated once if it runs out of memory. Fails at any other fault.
fn again<T: Drop, F: Drop>(
    alloc: Global,
    is_memory: impl Fn(&F) -> bool,
    mut call: impl FnMut() -> Result<T, F>,
) -> Result<T, Fail> {
    mark(alloc)?;
    let answer = match call() {
        Err(fault) if is_memory(&fault) => call(),
        answer => answer,
    };
    mark(alloc)?;
    answer.map_err(|_| Fail::from("another answer than that of ample memory"))
}

#[test]
fn a_network_is_read_again(rt: HostRuntime) -> Result<(), Fail> {
    let alloc = rt.alloc();
    let net = again(
        alloc,
        |fault| *fault == FileFault::Memory,
        || read_network(alloc, TRIANGLE),
    )?;
    assert_eq!(rt; (net.nodes(), net.links(), net.far(1, 1)), (3, 3, (2, 0)));
    Ok(())
}

fn lineup(alloc: Global, network: &Net) -> Result<Lineup, FileFault> {
    let tournament = read_tournament(alloc, TOURNAMENT)?;
    assemble(alloc, tournament, &[network.try_clone(alloc)?])
}

#[test]
fn a_tournament_is_read_and_put_together_again(rt: HostRuntime) -> Result<(), Fail> {
    let alloc = rt.alloc();
    let net = read_network(alloc, TRIANGLE)?;
    let is_memory = |fault: &FileFault| *fault == FileFault::Memory;
    let lineup = again(alloc, is_memory, || lineup(alloc, &net))?;
    assert_eq!(rt; lineup.ready.len(), 1);
    let one = &lineup.ready[0];
    assert_eq!(rt; (one.team.as_str(), one.game.net().nodes()), ("red", 3));
    assert_eq!(rt; one.game.setup(), &super::setup(alloc)?);
    assert!(rt; one.held.has(0, 1) && !one.held.has(0, 0));
    assert_eq!(rt;
        (lineup.keys.find("ka"), lineup.keys.find("kb")),
        (Some((0, 0)), Some((0, 1)))
    );
    assert_eq!(rt; lineup.keys.find("kc"), None);
    Ok(())
}

/// Want of memory where other faults may be.
fn unless_memory<T: Drop, F: Drop>(made: Result<T, F>) -> Result<T, Memory> {
    made.map_err(|_| Memory)
}

#[test]
fn a_match_is_made_again(rt: HostRuntime) -> Result<(), Fail> {
    let alloc = rt.alloc();
    let (game, _) = again(alloc, |_: &Memory| true, || triangle(alloc).ok_or(Memory))?;
    assert_eq!(rt; game.setup(), &super::setup(alloc)?);
    assert_eq!(rt; (game.net().nodes(), game.log().len()), (3, 0));
    Ok(())
}

/// The match on the triangle, under its lock.
fn shared_match(alloc: Global) -> Result<SharedMatch, Memory> {
    let (game, held): (Match, Held) = triangle(alloc).ok_or(Memory)?;
    SharedMatch::new(alloc, 0, game, held, ScheduleKind::Adaptive)
}

/// What an agent is answered to a command. If memory runs out its pass stays as it was, and the command is told
/// again.
fn told<R: Wait + Abort>(
    rt: &R,
    alloc: Global,
    shared_match: &SharedMatch,
    pass: &mut Pass,
    command: impl Fn() -> Result<Command, AllocError>,
) -> Result<Reply, Fail> {
    let before = pass.receipts().len();
    let submit = || -> Result<Answer, Memory> {
        let command = unless_memory(command())?;
        assert_eq!(rt; pass.receipts().len(), before);
        shared_match.submit(rt, &NoHooks, pass, command)
    };
    Ok(again(alloc, |_: &Memory| true, submit)?.reply)
}

#[test]
fn a_match_under_its_lock_is_made_and_told_again(rt: HostRuntime) -> Result<(), Fail> {
    let alloc = rt.alloc();
    let shared_match = again(alloc, |_: &Memory| true, || shared_match(alloc))?;
    let mut pass = shared_match.claim(&rt, 0).expect(&rt, "a pass is claimed once");
    let here = |board: &str| -> Result<Reply, Fail> {
        Ok(Reply::Here {
            ports: 2,
            came: None,
            board: Text::new(alloc, board)?,
        })
    };
    let entered = told(&rt, alloc, &shared_match, &mut pass, || Ok(Command::Enter))?;
    assert_eq!(rt; entered, here("")?);
    let written = told(&rt, alloc, &shared_match, &mut pass, || write(alloc))?;
    assert_eq!(rt; written, Reply::Written);
    let looked = told(&rt, alloc, &shared_match, &mut pass, || Ok(Command::Look))?;
    assert_eq!(rt; looked, here("ab")?);
    for (receipt, reply) in pass.receipts().iter().zip([&entered, &written, &looked]) {
        assert_eq!(rt; &receipt.reply, reply);
    }
    assert_eq!(rt; pass.receipts().len(), 3);
    Ok(())
}

fn sealed(alloc: Global, replay: &str) -> Result<Sealed, ReplayFault> {
    read_replay(alloc, &mut replay.as_bytes(), 1_000)
}

fn written(alloc: Global, sealed: &Sealed) -> Result<Vec<u8>, Fail> {
    let mut text = Vec::with_capacity(alloc, 1_000)?;
    write_replay(alloc, sealed, &mut text)?;
    Ok(text)
}

#[test]
fn a_replay_is_read_again(rt: HostRuntime) -> Result<(), Fail> {
    let alloc = rt.alloc();
    let is_memory = |fault: &ReplayFault| *fault == ReplayFault::Memory;
    let sealed = again(alloc, is_memory, || sealed(alloc, ACCUSED))?;
    assert_eq!(rt; written(alloc, &sealed)?.as_slice(), ACCUSED.as_bytes());
    Ok(())
}

/// What a call wrote in which memory ran out is a front of the text.
#[test]
fn a_replay_is_written_again(rt: HostRuntime) -> Result<(), Fail> {
    let alloc = rt.alloc();
    let sealed = sealed(alloc, ACCUSED)?;
    let mut text: Vec<u8> = Vec::with_capacity(alloc, ACCUSED.len())?;
    let write = || -> Result<(), WritingFault> {
        assert!(rt; ACCUSED.as_bytes().starts_with(&text));
        text.clear();
        write_replay(alloc, &sealed, &mut text)
    };
    again(
        alloc,
        |fault: &WritingFault| *fault == WritingFault::Memory,
        write,
    )?;
    assert_eq!(rt; text.as_slice(), ACCUSED.as_bytes());
    Ok(())
}

#[test]
fn a_past_is_cut_out_again(rt: HostRuntime) -> Result<(), Fail> {
    let alloc = rt.alloc();
    let sealed = sealed(alloc, PLAYED)?;
    let cut = again(alloc, |_: &Memory| true, || cut_of(alloc, &sealed, 0))?;
    assert_eq!(rt; cut.as_slice(), [0, 5].as_slice());
    Ok(())
}

#[test]
fn a_match_is_restricted_again(rt: HostRuntime) -> Result<(), Fail> {
    let alloc = rt.alloc();
    let sealed = sealed(alloc, PLAYED)?;
    let is_memory = |fault: &RestrictFault| *fault == RestrictFault::Memory;
    let part = again(alloc, is_memory, || restrict(alloc, &sealed, &[0, 5]))?;
    let (head, _) = PLAYED.split_once('\n').unwrap_or_default();
    let mut text = format!(in alloc; "{head}\n")?;
    for place in [1, 6, 7] {
        let line = PLAYED.lines().nth(place).unwrap_or_default();
        text.push_str(format!(in alloc; "{line}\n")?.as_str())?;
    }
    text.push_str("{\"end\":3}\n")?;
    assert_eq!(rt; written(alloc, &part)?.as_slice(), text.as_bytes());
    Ok(())
}

/// The black hole of the twin is node 1 alone.
#[test]
fn a_twin_is_made_again(rt: HostRuntime) -> Result<(), Fail> {
    let alloc = rt.alloc();
    let sealed = sealed(alloc, ACCUSED)?;
    let is_memory = |fault: &TwinFault| *fault == TwinFault::Memory;
    let twin = again(alloc, is_memory, || twin_of(alloc, &sealed, 1))?;
    let mut text = Vec::with_capacity(alloc, 1_000)?;
    write_part(alloc, &twin.start, &sealed, &twin.left, &mut text)?;
    let expected = ACCUSED.replace(alloc, "\"holes\":[2]", "\"holes\":[1]")?;
    assert_eq!(rt; text.as_slice(), expected.as_bytes());
    Ok(())
}
