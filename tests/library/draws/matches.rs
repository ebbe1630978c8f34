use super::super::triangle::{network, setup};
use bhs_deliveries::{Dealer, Drawn, Held, Waits, deliver, draw, draw_oblivious};
use bhs_match::Match;
use bhs_model::{Command, Event};
use bhs_time::Delays;
use std::alloc::Global;
use std::test::Fail;

/// The triangle with the black hole at node 2, and the links held that are named.
fn triangle(alloc: Global, pairs: &[(u16, u16)]) -> Result<(Match, Held), Fail> {
    let net = network(alloc)?;
    let held = Held::new(alloc, &net, pairs)?;
    Ok((Match::new(alloc, net, setup(alloc)?)?, held))
}

fn tell(agent: u16, command: Command) -> Event {
    Event::Tell { agent, command }
}

fn depart(agent: u16, port: u16) -> Event {
    tell(agent, Command::Depart { port })
}

#[test]
fn who_is_held_stays(rt: HostRuntime) -> Result<(), Fail> {
    let (mut game, held) = triangle(rt.alloc(), &[(0, 0)])?;
    game.apply(tell(0, Command::Enter));
    game.apply(depart(0, 0));
    for word in 0..3 {
        assert_eq!(rt; draw(&mut game, &held, word), Drawn::Stays);
        assert_eq!(rt; (game.log().len(), game.pool().len()), (2, 1));
        assert!(rt; game.news(0).is_empty());
    }
    Ok(())
}

#[test]
fn nobody_is_drawn_after_the_close(rt: HostRuntime) -> Result<(), Fail> {
    let (mut game, held) = triangle(rt.alloc(), &[])?;
    game.apply(tell(0, Command::Enter));
    game.apply(depart(0, 0));
    game.apply(Event::Close);
    assert_eq!(rt; draw(&mut game, &held, 0), Drawn::Nobody);
    assert_eq!(rt; (game.log().len(), game.pool().len()), (3, 1));
    Ok(())
}

/// The first agent goes into the black hole, and stays in the pool.
#[test]
fn a_draw_tells_whom_it_delivers(rt: HostRuntime) -> Result<(), Fail> {
    let (mut game, held) = triangle(rt.alloc(), &[])?;
    assert_eq!(rt; draw(&mut game, &held, 7), Drawn::Nobody);
    for agent in 0..2 {
        game.apply(tell(agent, Command::Enter));
    }
    game.apply(depart(0, 1));
    assert_eq!(rt; draw(&mut game, &held, 0), Drawn::Delivered { agent: 0 });
    assert_eq!(rt; (game.log().len(), game.pool().len()), (4, 1));
    game.apply(depart(1, 0));
    assert_eq!(rt; draw(&mut game, &held, 4), Drawn::Delivered { agent: 0 });
    assert_eq!(rt; (game.log().len(), game.pool().len()), (5, 2));
    assert_eq!(rt; draw(&mut game, &held, 5), Drawn::Delivered { agent: 1 });
    assert_eq!(rt; (game.log().len(), game.pool().len()), (6, 1));
    assert_eq!(rt; (game.news(0).len(), game.news(1)), (0, [5].as_slice()));
    Ok(())
}

/// Once the match and the held links are made, nothing here asks for memory.
#[test]
fn two_agents_play_until_their_quotas_are_spent(rt: HostRuntime) -> Result<(), Fail> {
    let (mut game, held) = triangle(rt.alloc(), &[(0, 1)])?;
    let mut dealer = Dealer::new([0; 32], 0);
    game.apply(tell(0, Command::Enter));
    game.apply(tell(1, Command::Enter));
    let mut somebody_arrived = false;
    for turn in 0..10 {
        game.apply(depart(turn % 2, (dealer.next() % 2) as u16));
        let drawn = draw(&mut game, &held, dealer.next());
        somebody_arrived = somebody_arrived || drawn != Drawn::Stays;
    }
    assert!(rt; somebody_arrived && game.log().len() > 4);
    game.apply(Event::Close);
    assert!(rt; game.closed());
    Ok(())
}

/// A delivery delivers the named agent, even if other agents are on links.
#[test]
fn an_agent_is_delivered_by_its_number(rt: HostRuntime) -> Result<(), Fail> {
    let (mut game, held) = triangle(rt.alloc(), &[(0, 1)])?;
    for agent in 0..2 {
        game.apply(tell(agent, Command::Enter));
    }
    assert_eq!(rt; deliver(&mut game, &held, 1), Drawn::Nobody);
    game.apply(depart(0, 1));
    game.apply(depart(1, 0));
    assert_eq!(rt; deliver(&mut game, &held, 0), Drawn::Stays);
    assert_eq!(rt; deliver(&mut game, &held, 1), Drawn::Delivered { agent: 1 });
    assert_eq!(rt; deliver(&mut game, &held, 1), Drawn::Nobody);
    assert_eq!(rt; deliver(&mut game, &held, 2), Drawn::Nobody);
    assert_eq!(rt;
        (game.log().len(), game.pool().len(), game.news(1)),
        (5, 1, [4].as_slice())
    );
    Ok(())
}

/// Words 0 to 3 of a seed of zeros on stream 0 pick the agents 0, 1, 1, 1 of two. The word of agent 1 for turn 0 is
/// 0x78dcb1f2: of 16 scales and odds, scale 2, with a delay of 4 turns and word / 16 mod 4 more, which is 7.
#[test]
fn an_oblivious_turn_waits_for_the_delay(rt: HostRuntime) -> Result<(), Fail> {
    let (mut game, held) = triangle(rt.alloc(), &[])?;
    for agent in 0..2 {
        game.apply(tell(agent, Command::Enter));
    }
    game.apply(depart(1, 0));
    let mut dealer = Dealer::new([0; 32], 0);
    let delays = Delays::new(16, 16);
    for turn in 0..7 {
        let waits = Waits {
            delays,
            turn,
            departed: &[0, 0],
        };
        assert_eq!(rt;
            draw_oblivious(&mut game, &held, &mut dealer, &waits),
            Drawn::Nobody
        );
    }
    let mut later = Dealer::new([0; 32], 0);
    let waits = Waits {
        delays,
        turn: 7,
        departed: &[0, 0],
    };
    assert_eq!(rt;
        draw_oblivious(&mut game, &held, &mut later, &waits),
        Drawn::Nobody
    );
    assert_eq!(rt;
        draw_oblivious(&mut game, &held, &mut later, &waits),
        Drawn::Delivered { agent: 1 }
    );
    Ok(())
}
