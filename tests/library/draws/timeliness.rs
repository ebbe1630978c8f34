use super::super::triangle::{network, setup};
use bhs_deliveries::{Dealer, Held, Schedule, Untimely, first_untimely};
use bhs_match::{Match, Sealed};
use bhs_model::{Command, Event};
use bhs_time::Delays;
use std::alloc::Global;
use std::process::Abort;
use std::test::Fail;

/// A match in which agent 0 departs by this port and is delivered: enter, depart, deliver, close.
fn walk<R: Abort>(rt: &R, alloc: Global, port: u16) -> Result<Sealed, Fail> {
    let mut game = Match::new(alloc, network(alloc)?, setup(alloc)?)?;
    for command in vec![in alloc; Command::Enter, Command::Depart { port }]? {
        game.apply(Event::Tell { agent: 0, command });
    }
    game.apply(Event::Deliver { agent: 0 });
    game.apply(Event::Close);
    assert_eq!(rt; game.log().len(), 4);
    match game.sealed() {
        Ok(sealed) => Ok(sealed),
        Err(_) => Err(Fail::from("the match has ended")),
    }
}

/// The first untimely event of a walk with these turns of departure and arrival, under this law of delays.
fn found(
    alloc: Global,
    sealed: &Sealed,
    turns: [u32; 2],
    delays: Delays,
    dealer: &Dealer,
) -> Result<Option<(usize, Untimely)>, Fail> {
    let held = Held::new(alloc, sealed.net(), &[])?;
    let schedule = Schedule {
        dealer,
        delays,
        held: &held,
    };
    let all = [0, turns[0], turns[1], 9];
    Ok(first_untimely(alloc, sealed, &all, &schedule)?)
}

/// By the seed of zeros turns pick the agents 0, 1, 1, 1, 0, 0, 0, 1. Links have no delay.
#[test]
fn a_delivery_is_timely_at_the_first_turn_that_picks_the_agent(
    rt: HostRuntime,
) -> Result<(), Fail> {
    let alloc = rt.alloc();
    let dealer = Dealer::new([0; 32], 0);
    // into the black hole by port 1 as well as to the next node
    for port in 0..2 {
        let sealed = walk(&rt, alloc, port)?;
        for (departed, arrived, wrong) in [
            (0, 0, None),
            (1, 4, None),
            (4, 4, None),
            (5, 5, None),
            // the turn before, the turn after, and a turn that picks the agent again
            (1, 3, Some((2, Untimely::Late))),
            (1, 5, Some((2, Untimely::LeftOut { agent: 0, turn: 4 }))),
            (0, 4, Some((2, Untimely::LeftOut { agent: 0, turn: 0 }))),
            // before its departure
            (4, 0, Some((2, Untimely::Early))),
        ] {
            let turns = [departed, arrived];
            assert_eq!(rt;
                found(alloc, &sealed, turns, Delays::new(0, 1), &dealer)?,
                wrong
            );
        }
    }
    Ok(())
}

/// Each link takes one turn; the dealer may stand anywhere, and another stream picks by other words.
#[test]
fn a_delivery_before_its_delay_is_not_timely(rt: HostRuntime) -> Result<(), Fail> {
    let alloc = rt.alloc();
    let sealed = walk(&rt, alloc, 0)?;
    let mut dealer = Dealer::new([0; 32], 0);
    for _ in 0..3 {
        for (departed, arrived, wrong) in [
            (0, 0, Some((2, Untimely::Late))),
            (0, 4, None),
            (4, 4, Some((2, Untimely::Late))),
            (4, 5, None),
        ] {
            let turns = [departed, arrived];
            assert_eq!(rt;
                found(alloc, &sealed, turns, Delays::new(1, 1), &dealer)?,
                wrong
            );
        }
        dealer.next();
    }
    // the first word of stream 1 picks agent 1, the second too
    let other = Dealer::new([0; 32], 1);
    let wrong = Some((2, Untimely::Late));
    assert_eq!(rt;
        found(alloc, &sealed, [0, 0], Delays::new(0, 1), &other)?,
        wrong
    );
    Ok(())
}
