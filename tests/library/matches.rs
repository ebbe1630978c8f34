ghost use Rattle.std.specs.Prelude.{IfOk, ◌≡◌, []};

use super::triangle::{network, setup};
use bhs_match::{Arena, ArenaFault, Bound, Match};
use bhs_model::{Command, DarkLinks, Event, Holes, Mark, Reply, Setup, Text, Why};
use bhs_world::SetupFault;
use std::alloc::{AllocError, Global};
use std::process::Abort;
use std::test::Fail;

/// The triangle with the black hole at node 2.
fn triangle(alloc: Global) -> Result<Match, Fail> {
    Ok(Match::new(alloc, network(alloc)?, setup(alloc)?)?)
}

/// The triangle without a black hole, whose link between nodes 0 and 2 is dark.
fn dark(alloc: Global) -> Result<Match, Fail> {
    let setup = Setup {
        holes: Holes::from(Vec::new(alloc)),
        dark: DarkLinks::from(vec![in alloc; (0, 1)]?),
        ..setup(alloc)?
    };
    Ok(Match::new(alloc, network(alloc)?, setup)?)
}

fn tell(agent: u16, command: Command) -> Event {
    Event::Tell { agent, command }
}

fn deliver(agent: u16) -> Event {
    Event::Deliver { agent }
}

fn depart(port: u16) -> Command {
    Command::Depart { port }
}

fn write(alloc: Global, expect: &str, put: &str) -> Result<Command, AllocError> {
    Ok(Command::Write {
        expect: Text::new(alloc, expect)?,
        put: Text::new(alloc, put)?,
    })
}

pub(super) fn here(came: Option<u16>, board: Option<u32>) -> Option<Mark> {
    Some(Mark::Here {
        ports: 2,
        came,
        board,
    })
}

fn no(why: Why) -> Option<Mark> {
    Some(Mark::No(why))
}

/// An event, and the place in the log and the mark that answer it.
type Step = (Event, Option<u32>, Option<Mark>);

fn plays<R: Abort>(rt: &R, game: &mut Match, steps: Vec<Step>) -> Result<(), Fail> {
    for (event, place, mark) in steps {
        let answer = game.apply(event);
        assert_eq!(rt; (answer.place, answer.mark), (place, mark));
    }
    Ok(())
}

#[test]
fn a_setup_is_refused(rt: HostRuntime) -> Result<(), Fail> {
    let alloc = rt.alloc();
    let setup = Setup {
        agents: 65,
        ..setup(alloc)?
    };
    let refused = Match::new(alloc, network(alloc)?, setup);
    assert_eq!(rt; refused.err(), Some(SetupFault::Agents));
    Ok(())
}

#[test]
fn who_departs_is_away_until_it_arrives_or_leaves(rt: HostRuntime) -> Result<(), Fail> {
    let mut game = triangle(rt.alloc())?;
    let steps = vec![in rt.alloc();
        (tell(0, Command::Enter), Some(0), here(None, None)),
        (tell(0, depart(0)), Some(1), Some(Mark::Gone)),
        (tell(0, Command::Look), Some(2), no(Why::Away)),
        (tell(0, Command::Leave), Some(3), Some(Mark::Bye)),
        (deliver(0), None, None),
    ]?;
    plays(&rt, &mut game, steps)?;
    assert!(rt; game.pool().is_empty());
    Ok(())
}

#[test]
fn the_destroyed_stay_in_the_pool_until_they_leave(rt: HostRuntime) -> Result<(), Fail> {
    let mut game = triangle(rt.alloc())?;
    let steps = vec![in rt.alloc();
        (tell(0, Command::Enter), Some(0), here(None, None)),
        (tell(0, depart(1)), Some(1), Some(Mark::Gone)),
        (deliver(0), Some(2), None),
        (deliver(0), None, None),
        (tell(0, Command::Look), Some(3), no(Why::Away)),
    ]?;
    plays(&rt, &mut game, steps)?;
    let bound = Bound {
        agent: 0,
        node: 0,
        port: 1,
    };
    assert_eq!(rt; game.pool(), [bound].as_slice());
    assert_eq!(rt; game.apply(tell(0, Command::Leave)).mark, Some(Mark::Bye));
    assert!(rt; game.pool().is_empty());
    Ok(())
}

#[test]
fn a_dark_link_destroys_in_both_directions(rt: HostRuntime) -> Result<(), Fail> {
    let alloc = rt.alloc();
    let mut game = dark(alloc)?;
    let steps = vec![in alloc;
        (tell(0, Command::Enter), Some(0), here(None, None)),
        (tell(0, depart(1)), Some(1), Some(Mark::Gone)),
        (deliver(0), Some(2), None),
        (tell(1, Command::Enter), Some(3), here(None, None)),
        (tell(1, depart(0)), Some(4), Some(Mark::Gone)),
        (deliver(1), Some(5), here(Some(0), None)),
        (tell(1, depart(1)), Some(6), Some(Mark::Gone)),
        (deliver(1), Some(7), here(Some(0), None)),
        (tell(1, depart(1)), Some(8), Some(Mark::Gone)),
        (deliver(1), Some(9), None),
        (deliver(1), None, None),
    ]?;
    plays(&rt, &mut game, steps)?;
    let bound = |agent, node| Bound {
        agent,
        node,
        port: 1,
    };
    assert_eq!(rt; game.pool(), [bound(0, 0), bound(1, 2)].as_slice());
    assert_eq!(rt; game.news(1), [5, 7].as_slice());
    Ok(())
}

#[test]
fn a_match_has_64_agents(rt: HostRuntime) -> Result<(), Fail> {
    let alloc = rt.alloc();
    let setup = Setup {
        agents: 64,
        quota: 1000,
        board: 4096,
        ..setup(alloc)?
    };
    let mut game = Match::new(alloc, network(alloc)?, setup)?;
    for agent in 0..64 {
        let answer = game.apply(tell(agent, Command::Enter));
        assert_eq!(rt;
            (answer.place, answer.mark),
            (Some(u32::from(agent)), here(None, None))
        );
    }
    let answer = game.apply(tell(64, Command::Look));
    assert_eq!(rt; (answer.place, answer.mark), (None, no(Why::Agent)));
    Ok(())
}

#[test]
fn a_whiteboard_holds_65535_bytes(rt: HostRuntime) -> Result<(), Fail> {
    let alloc = rt.alloc();
    let setup = Setup {
        board: 65_535,
        ..setup(alloc)?
    };
    let mut game = Match::new(alloc, network(alloc)?, setup)?;
    game.apply(tell(0, Command::Enter));
    let mut text = String::new(alloc);
    for _ in 0..65_535 {
        text.push('a')?;
    }
    let full = write(alloc, "", text.as_str())?;
    let longer = write(alloc, text.as_str(), format!(in alloc; "{text}a")?.as_str())?;
    assert_eq!(rt; game.apply(tell(0, full)).mark, Some(Mark::Written));
    assert_eq!(rt; game.apply(tell(0, longer)).mark, no(Why::Long));
    assert_eq!(rt; game.seen(0)?.as_str().len(), 65_535);
    Ok(())
}

#[test]
fn refusals_are_not_kept(rt: HostRuntime) -> Result<(), Fail> {
    let mut game = triangle(rt.alloc())?;
    let steps = vec![in rt.alloc();
        (tell(2, Command::Look), None, no(Why::Agent)),
        (tell(0, Command::Look), None, no(Why::Outside)),
        (tell(0, Command::Leave), None, no(Why::Outside)),
        (tell(0, Command::Enter), Some(0), here(None, None)),
        (tell(0, Command::Enter), None, no(Why::Twice)),
        (tell(0, Command::Leave), Some(1), Some(Mark::Bye)),
        (tell(0, Command::Look), None, no(Why::Ended)),
        (tell(0, Command::Enter), None, no(Why::Twice)),
        (tell(1, Command::Enter), Some(2), here(None, None)),
        (tell(1, Command::Accuse { port: 2 }), Some(3), no(Why::Port)),
        (
            tell(1, Command::Accuse { port: 0 }),
            Some(4),
            Some(Mark::Noted)
        ),
        (tell(1, Command::Leave), None, no(Why::Ended)),
        (Event::Close, Some(5), None),
        (tell(0, Command::Look), None, Some(Mark::Over)),
        (tell(2, Command::Look), None, no(Why::Agent)),
        (Event::Close, None, None),
    ]?;
    plays(&rt, &mut game, steps)?;
    assert_eq!(rt; game.log().len(), 6);
    Ok(())
}

#[test]
fn a_match_shows_what_follows_from_its_log(rt: HostRuntime) -> Result<(), Fail> {
    let alloc = rt.alloc();
    let mut game = triangle(alloc)?;
    for event in vec![in alloc;
        tell(0, Command::Enter),
        tell(0, write(alloc, "", "a")?),
        tell(0, depart(0)),
        deliver(0),
        tell(1, Command::Enter),
        tell(1, depart(0)),
        tell(0, depart(0)),
        deliver(0),
    ]? {
        game.apply(event);
    }
    assert_eq!(rt; game.news(0), [3, 7].as_slice());
    assert!(rt; game.news(1).is_empty() && game.news(2).is_empty());
    let bound = Bound {
        agent: 1,
        node: 0,
        port: 0,
    };
    assert_eq!(rt; game.pool(), [bound].as_slice());
    let seen = (game.seen(0)?, game.seen(1)?, game.seen(2)?);
    assert_eq!(rt;
        (seen.0.as_str(), seen.1.as_str(), seen.2.as_str()),
        ("a", "", "a")
    );
    let away = [0, 1, 2].map(|agent| game.is_away(agent));
    assert_eq!(rt; away, [false, true, false]);

    let look = game.apply(tell(0, Command::Look)).mark;
    assert_eq!(rt; look, here(Some(0), Some(1)));
    let mark = look.expect(&rt, "a look is answered");
    assert_eq!(rt; game.text(&mark), "a");
    assert_eq!(rt; game.text(&Mark::Gone), "");
    let board = Text::new(alloc, "a")?;
    let reply = Reply::Here {
        ports: 2,
        came: Some(0),
        board,
    };
    assert_eq!(rt; game.reply(&mark)?, reply);
    assert_eq!(rt; game.setup(), &setup(alloc)?);
    assert_eq!(rt; game.net().nodes(), 3);
    Ok(())
}

#[test]
fn a_match_is_sealed_once_it_has_ended(rt: HostRuntime) -> Result<(), Fail> {
    let alloc = rt.alloc();
    let mut game = triangle(alloc)?;
    game.apply(tell(0, Command::Enter));
    game.apply(tell(0, write(alloc, "", "a")?));
    let look = game
        .apply(tell(0, Command::Look))
        .mark
        .expect(&rt, "a look is answered");
    let mut game = game.sealed().err().expect(&rt, "the match goes on");
    assert!(rt; !game.closed());
    game.apply(Event::Close);
    assert!(rt; game.closed());
    let sealed = game.sealed().ok().expect(&rt, "the match has ended");
    assert_eq!(rt; sealed.log().len(), 4);
    assert_eq!(rt; sealed.text(&look), "a");
    assert_eq!(rt; sealed.reply(&Mark::Bye)?, Reply::Bye);
    assert_eq!(rt; sealed.setup(), &setup(alloc)?);
    assert_eq!(rt; sealed.net().nodes(), 3);
    Ok(())
}

#[test]
fn a_match_hears_nothing_of_another(rt: HostRuntime) -> Result<(), Fail> {
    let alloc = rt.alloc();
    let mut arena = Arena::new(vec![in alloc; triangle(alloc)?, triangle(alloc)?]?);
    for (game, event, mark) in vec![in alloc;
        (0, tell(0, Command::Enter), Ok(here(None, None))),
        (1, tell(0, Command::Enter), Ok(here(None, None))),
        (1, tell(0, write(alloc, "", "a")?), Ok(Some(Mark::Written))),
        (0, tell(0, depart(0)), Ok(Some(Mark::Gone))),
        (1, tell(0, depart(0)), Ok(Some(Mark::Gone))),
        (0, deliver(0), Ok(here(Some(0), None))),
        (2, Event::Close, Err(ArenaFault::NoGame)),
    ]? {
        assert_eq!(rt; arena.apply(game, event).map(|answer| answer.mark), mark);
    }
    assert!(rt; arena.game(2).is_none());
    let red = arena.game(0).expect(&rt, "there is a first match");
    assert_eq!(rt; red.log().len(), 3);
    assert_eq!(rt; arena.into_games().len(), 2);
    Ok(())
}
