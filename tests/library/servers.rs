//! Contests over loopback sockets.

mod clients;
mod contests;
mod lock_hooks;
mod logs;

use bhs_shared_match::{SharedMatch, LockHooks, NoHooks};
use bhs_server::{Blind, Contest, StartError, Limits, Outside, Served, Strays, Watch, run_server};
use bhs_session::Ended;
use clients::{
    ACCUSE, BYE, COME, Client, DEPART, DEPART_TO_THE_HOLE, GONE, HERE, LEAVE, LOOK, NOTED, OVER,
    STRANGE, TAKEN, UNKNOWN,
};
use contests::{Patience, contest};
use lock_hooks::{Counted, Turnstile};
use logs::{all_sealed, lengths, log_of, played_by};
use std::alloc::Global;
use std::net::{Ipv4Addr, Net, SocketAddr, TcpListener, TcpStream};
use std::sync::Wait;
use std::test::Fail;
use std::thread::Threads;
use std::time::{Clock, Duration};
use std::{io, thread};

fn listener<R: Net<Listener = TcpListener, Stream = TcpStream>>(rt: &R) -> io::Result<TcpListener> {
    TcpListener::bind(rt, SocketAddr::from((Ipv4Addr::LOCALHOST, 0)))
}

/// For this many sessions, which may last two seconds once all matches are closed.
fn limits(sessions: u32) -> Limits {
    Limits {
        sessions,
        grace: Duration::from_millis(2000),
        gather: 0,
        early: false,
    }
}

/// What a server serves of a contest by this many sessions, and what its clients do meanwhile.
fn served_beside<R, G, T>(
    rt: &R,
    alloc: Global,
    contest: Contest,
    sessions: u32,
    pace: &Patience<'_, R>,
    lock_hooks: &G,
    clients: impl FnOnce(&Client<'_, R>) -> T + Send,
) -> Result<(Served, T), Fail>
where
    R: Threads + Wait + Clock + Net<Listener = TcpListener, Stream = TcpStream> + Sync,
    G: LockHooks + Sync,
    T: Send + Drop,
{
    let listener = listener(rt)?;
    let client = Client::new(rt, alloc, listener.local_addr()?);
    let (served, told) = thread::join(
        rt,
        || run_server(
            rt,
            alloc,
            &listener,
            contest,
            limits(sessions),
            pace,
            lock_hooks,
            &Blind,
        ),
        || clients(&client),
    );
    Ok((begun(served)?, told))
}

/// The contest, if it lacked nothing.
fn begun(served: Result<Served, StartError>) -> Result<Served, Fail> {
    served.map_err(|_| Fail::from("memory or threads ran out"))
}

/// What clients hear of whom two enter and leave.
fn two_visits<R: Net<Listener = TcpListener, Stream = TcpStream> + Clock>(
    client: &Client<'_, R>,
    pace: &Patience<'_, R>,
) -> io::Result<(String, String)> {
    let first = client.enters("k0-0", LEAVE)?;
    let second = client.enters("k0-1", LEAVE)?;
    let heard = (client.hears(first)?, client.hears(second)?);
    pace.reach();
    Ok(heard)
}

#[test]
fn two_enter_and_leave(rt: HostRuntime) -> Result<(), Fail> {
    let alloc = rt.alloc();
    let pace = Patience::new(&rt, 0, 1);
    let contest = contest(alloc, 1, 2)?;
    let (served, heard) = served_beside(
        &rt,
        alloc,
        contest,
        2,
        &pace,
        &NoHooks,
        |client| two_visits(client, &pace),
    )?;
    let visit = format!(in alloc; "{HERE}{BYE}")?;
    let (first, second) = heard?;
    assert!(rt; first == visit && second == visit);
    let Served { settled, ended } = served;
    let sealed = all_sealed(alloc, settled)?;
    assert_eq!(rt; ended.as_slice(), [Ended::Bye, Ended::Bye].as_slice());
    assert_eq!(rt; lengths(alloc, &sealed)?.as_slice(), [5].as_slice());
    for agent in 0..2 {
        let visit = format!(in alloc; "{agent}enter {agent}leave ")?;
        assert_eq!(rt; played_by(alloc, &sealed[0], agent)?, visit);
    }
    assert!(rt; log_of(alloc, &sealed[0])?.ends_with(" close "));
    assert!(rt; !pace.gave_up());
    Ok(())
}

#[test]
fn sessions_are_served_beside_each_other(rt: HostRuntime) -> Result<(), Fail> {
    let alloc = rt.alloc();
    let pace = Patience::new(&rt, 0, 1);
    let lock_hooks = Turnstile::new(&rt);
    let contest = contest(alloc, 1, 2)?;
    let (served, heard) = served_beside(
        &rt,
        alloc,
        contest,
        2,
        &pace,
        &lock_hooks,
        |client| two_visits(client, &pace),
    )?;
    assert!(rt; heard.is_ok());
    assert_eq!(rt;
        lengths(alloc, &all_sealed(alloc, served.settled)?)?.as_slice(),
        [5].as_slice()
    );
    assert!(rt; !pace.gave_up() && !lock_hooks.gave_up());
    Ok(())
}

/// What a client hears whose session ends, for each way of ending.
fn each_ending<R: Net<Listener = TcpListener, Stream = TcpStream> + Clock>(
    client: &Client<'_, R>,
    pace: &Patience<'_, R>,
    alloc: Global,
) -> io::Result<String> {
    let mut heard = String::new(alloc);
    let bye = client.hears(client.enters("k0-0", LEAVE)?)?;
    heard.push_str(bye.as_str())?;
    let noted = client.hears(client.enters("k0-1", ACCUSE)?)?;
    heard.push_str(noted.as_str())?;
    let unknown = client.hears(client.enters("zz", LOOK)?)?;
    heard.push_str(unknown.as_str())?;
    let taken = client.hears(client.enters("k0-0", LOOK)?)?;
    heard.push_str(taken.as_str())?;
    let outside = client.hears(client.says(LOOK)?)?;
    heard.push_str(outside.as_str())?;
    let silent = client.hears(client.says("")?)?;
    heard.push_str(silent.as_str())?;
    let ended = client.hears(client.enters("k0-2", LOOK)?)?;
    heard.push_str(ended.as_str())?;
    client.waits_for(&client.enters("k0-3", "")?, HERE.len())?;
    client.waits_for(&client.enters("k0-4", DEPART)?, HERE.len() + GONE.len())?;
    pace.reach();
    let away = client.enters("k0-5", DEPART_TO_THE_HOLE)?;
    client.waits_for(&away, HERE.len() + GONE.len())?;
    pace.reach();
    let over = client.hears(away)?;
    heard.push_str(over.as_str())?;
    Ok(heard)
}

#[test]
fn sessions_end_by_each_cause(rt: HostRuntime) -> Result<(), Fail> {
    let alloc = rt.alloc();
    // the clients come far enough twice, and 14 commands are answered, two of them the leaves of failed sessions
    let pace = Patience::new(&rt, 12, 16);
    let contest = contest(alloc, 1, 6)?;
    let (served, heard) = served_beside(
        &rt,
        alloc,
        contest,
        10,
        &pace,
        &Counted::new(&pace),
        |client| each_ending(client, &pace, alloc),
    )?;
    let expected = format!(in alloc;
        "{HERE}{BYE}{HERE}{NOTED}{UNKNOWN}{TAKEN}{STRANGE}{HERE}{HERE}{HERE}{GONE}{OVER}"
    )?;
    assert_eq!(rt; heard?.as_str(), expected.as_str());
    let Served { settled, ended } = served;
    let sealed = all_sealed(alloc, settled)?;
    let causes = [
        Ended::Bye,
        Ended::Noted,
        Ended::InputEnded,
        Ended::ReadFault,
        Ended::WriteFault,
        Ended::Over,
    ];
    assert_eq!(rt; ended.len(), causes.len());
    for cause in causes {
        assert!(rt; ended.contains(&cause));
    }
    assert_eq!(rt; lengths(alloc, &sealed)?.as_slice(), [17].as_slice());
    assert!(rt; !pace.gave_up());
    Ok(())
}

/// Whether an agent enters, moves, looks and leaves. Its number counts the agents of all matches, eight of each.
fn moves_on<R: Net<Listener = TcpListener, Stream = TcpStream> + Clock>(
    client: &Client<'_, R>,
    pace: &Patience<'_, R>,
    alloc: Global,
    number: usize,
) -> io::Result<bool> {
    let (game, agent) = (number / 8, number % 8);
    let key = format!(in alloc; "k{game}-{agent}")?;
    let lines = format!(in alloc; "{LOOK}{DEPART}{LOOK}{LEAVE}")?;
    let heard = client.hears(client.enters(key.as_str(), lines.as_str())?)?;
    pace.reach();
    let expected = format!(in alloc; "{HERE}{HERE}{GONE}{COME}{COME}{BYE}")?;
    Ok(heard == expected)
}

#[test]
fn sixty_four_sessions_play_eight_matches(rt: HostRuntime) -> Result<(), Fail> {
    let alloc = rt.alloc();
    let pace = Patience::new(&rt, 0, 64);
    let contest = contest(alloc, 8, 8)?;
    let (served, heard) = served_beside(
        &rt,
        alloc,
        contest,
        64,
        &pace,
        &NoHooks,
        |client| thread::map_indices(
            &rt,
            alloc,
            64,
            &|number| moves_on(client, &pace, alloc, number),
        ),
    )?;
    for one in heard? {
        assert!(rt; one?);
    }
    let Served { settled, ended } = served;
    let sealed = all_sealed(alloc, settled)?;
    assert_eq!(rt; ended.len(), 64);
    assert!(rt; ended.iter().all(|ended| *ended == Ended::Bye));
    assert_eq!(rt; lengths(alloc, &sealed)?.as_slice(), [49; 8].as_slice());
    assert!(rt; !pace.gave_up());
    Ok(())
}

/// Returns the lines that four clients hear one after the other: a silent client, one with an unknown key, one that
/// enters and leaves, and one with the same key.
fn four_visits<R: Net<Listener = TcpListener, Stream = TcpStream> + Clock>(
    client: &Client<'_, R>,
    pace: &Patience<'_, R>,
    alloc: Global,
) -> io::Result<String> {
    let silent = client.hears(client.says("")?)?;
    let unknown = client.hears(client.enters("zz", LEAVE)?)?;
    let bye = client.hears(client.enters("k0-0", LEAVE)?)?;
    let taken = client.hears(client.enters("k0-0", LEAVE)?)?;
    pace.reach();
    Ok(format!(in alloc; "{silent}{unknown}{bye}{taken}")?)
}

#[test]
fn four_come_one_after_the_other(rt: HostRuntime) -> Result<(), Fail> {
    let alloc = rt.alloc();
    let pace = Patience::new(&rt, 0, 1);
    let contest = contest(alloc, 1, 2)?;
    let (served, heard) = served_beside(
        &rt,
        alloc,
        contest,
        4,
        &pace,
        &NoHooks,
        |client| four_visits(client, &pace, alloc),
    )?;
    let expected = format!(in alloc; "{UNKNOWN}{HERE}{BYE}{TAKEN}")?;
    assert_eq!(rt; heard?.as_str(), expected.as_str());
    let Served { settled, ended } = served;
    let sealed = all_sealed(alloc, settled)?;
    // a rejected client has no session
    assert_eq!(rt; ended.as_slice(), [Ended::Bye].as_slice());
    assert_eq!(rt; sealed.len(), 1);
    assert_eq!(rt; log_of(alloc, &sealed[0])?.as_str(), "0enter 0leave close ");
    assert!(rt; !pace.gave_up());
    Ok(())
}

/// A client whose agent enters, moves and is heard of no more.
fn is_gone<R: Net<Listener = TcpListener, Stream = TcpStream> + Clock>(
    client: &Client<'_, R>,
    pace: &Patience<'_, R>,
) -> io::Result<()> {
    drop(client.enters("k0-0", DEPART)?);
    pace.reach();
    Ok(())
}

#[test]
fn a_client_is_gone_at_once(rt: HostRuntime) -> Result<(), Fail> {
    let alloc = rt.alloc();
    let pace = Patience::new(&rt, 0, 1);
    let contest = contest(alloc, 1, 2)?;
    let (served, gone) = served_beside(
        &rt,
        alloc,
        contest,
        1,
        &pace,
        &NoHooks,
        |client| is_gone(client, &pace),
    )?;
    assert!(rt; gone.is_ok());
    let Served { settled, ended } = served;
    let sealed = all_sealed(alloc, settled)?;
    let causes = [
        Ended::Over,
        Ended::InputEnded,
        Ended::ReadFault,
        Ended::WriteFault,
    ];
    assert_eq!(rt; (ended.len(), sealed.len()), (1, 1));
    assert!(rt; causes.contains(&ended[0]));
    // it was heard before it was gone, and left where its session ended first
    let log = log_of(alloc, &sealed[0])?;
    let has = |event: &str| log.as_str().contains(event);
    let arrival = if has("0deliver") { "0deliver " } else { "" };
    let leave = if has("0leave") { "0leave " } else { "" };
    assert!(rt; ended[0] != Ended::Over || !has("0leave"));
    let events = format!(in alloc; "0enter 0depart {arrival}{leave}close ")?;
    assert_eq!(rt; log, events);
    let count = events.as_str().split(' ').count() - 1;
    assert_eq!(rt; lengths(alloc, &sealed)?.as_slice(), [count].as_slice());
    Ok(())
}

/// Clients that hold on to their connections: one that says nothing, and one that has entered.
fn hold_on<R: Net<Listener = TcpListener, Stream = TcpStream> + Clock>(
    client: &Client<'_, R>,
    pace: &Patience<'_, R>,
) -> io::Result<(TcpStream, TcpStream)> {
    let silent = client.says("")?;
    let entered = client.enters("k0-0", "")?;
    client.waits_for(&entered, HERE.len())?;
    pace.reach();
    Ok((silent, entered))
}

#[test]
fn sessions_are_cut_off_after_the_grace_period(rt: HostRuntime) -> Result<(), Fail> {
    let alloc = rt.alloc();
    let pace = Patience::new(&rt, 0, 1);
    let contest = contest(alloc, 1, 2)?;
    let (served, held) = served_beside(
        &rt,
        alloc,
        contest,
        3,
        &pace,
        &NoHooks,
        |client| hold_on(client, &pace),
    )?;
    assert!(rt; held.is_ok());
    let Served { settled, ended } = served;
    let sealed = all_sealed(alloc, settled)?;
    assert_eq!(rt; ended.as_slice(), [Ended::InputEnded].as_slice());
    assert_eq!(rt; lengths(alloc, &sealed)?.as_slice(), [2].as_slice());
    assert!(rt; !pace.gave_up());
    Ok(())
}

#[test]
fn an_accept_that_fails_is_no_session(rt: HostRuntime) -> Result<(), Fail> {
    let alloc = rt.alloc();
    let listener = listener(&rt)?;
    listener.set_nonblocking(true)?;
    let pace = Patience::new(&rt, 0, 0);
    let ready = contest(alloc, 2, 1)?;
    let Served { settled, ended } = begun(run_server(
        &rt,
        alloc,
        &listener,
        ready,
        limits(2),
        &pace,
        &NoHooks,
        &Blind,
    ))?;
    let sealed = all_sealed(alloc, settled)?;
    assert!(rt; ended.is_empty());
    assert_eq!(rt; lengths(alloc, &sealed)?.as_slice(), [1, 1].as_slice());
    Ok(())
}

/// Keeps each client waiting for four seconds, which is longer than the grace period.
#[derive(Drop)]
struct Late<'a, C> {
    clock: &'a C,
}

impl<C: Clock> Watch for Late<'_, C> {
    fn came(&self, _session: u32, _peer: SocketAddr) {
        thread::sleep(self.clock, Duration::from_millis(4000));
    }

    fn let_in(&self, _session: u32, _game: u32, _agent: u16) {}

    fn ended(&self, _session: u32, _ended: Ended, _game: u32, _agent: u16) {}

    fn strayed(&self, _session: u32, _strays: &Strays) {}

    fn left_outside(&self, _session: u32, _why: Outside) {}

    fn closed(&self, _game: u32, _turns: u32, _shared_match: &SharedMatch) {}

    fn look(&self, _shared_matches: &[SharedMatch]) {}
}

#[test]
fn a_session_that_begins_after_the_grace_period_is_cut_off(rt: HostRuntime) -> Result<(), Fail> {
    let alloc = rt.alloc();
    let pace = Patience::new(&rt, 0, 0);
    let ready = contest(alloc, 1, 1)?;
    let listener = listener(&rt)?;
    let client = Client::new(&rt, alloc, listener.local_addr()?);
    let (served, heard) = thread::join(
        &rt,
        || run_server(
            &rt,
            alloc,
            &listener,
            ready,
            limits(1),
            &pace,
            &NoHooks,
            &Late { clock: &rt },
        ),
        || -> io::Result<String> { io::read_to_string(alloc, &client.says("")?) },
    );
    assert_eq!(rt; heard?.as_str(), "");
    assert!(rt; begun(served)?.ended.is_empty());
    Ok(())
}
