use bhs_contest::{Progress, Steady};
use bhs_server::{Pace, PaceStep};
use std::test::Fail;
use std::time::{Duration, Instant};

#[test]
fn steady_pauses_before_each_turn_and_then_closes(rt: HostRuntime) -> Result<(), Fail> {
    let progress = Progress::new(rt.alloc(), 1)?;
    let pace = Steady::new(&rt, &progress, 3, 10);
    let begin = Instant::now(&rt)?;
    assert_eq!(rt; pace.next(0, 2), PaceStep::Turn);
    assert!(rt; begin.elapsed(&rt)? >= Duration::from_millis(10));
    assert_eq!(rt; progress.turns(&rt, 0), 2);
    assert_eq!(rt; pace.next(0, 3), PaceStep::Close);
    Ok(())
}

#[test]
fn a_match_that_is_called_off_is_closed_without_a_pause(rt: HostRuntime) -> Result<(), Fail> {
    let progress = Progress::new(rt.alloc(), 2)?;
    let pace = Steady::new(&rt, &progress, 3, 20);
    assert!(rt; !progress.call_off(&rt, 2));
    assert!(rt; progress.call_off(&rt, 1));
    assert!(rt; !progress.call_off(&rt, 1));
    assert!(rt; pace.gathers(0));
    assert!(rt; !pace.gathers(1));
    assert_eq!(rt; pace.next(0, 0), PaceStep::Turn);
    assert_eq!(rt; pace.next(1, 0), PaceStep::Close);
    assert!(rt; progress.call_all_off(&rt));
    assert!(rt; !progress.call_all_off(&rt));
    assert_eq!(rt; pace.next(0, 1), PaceStep::Close);
    Ok(())
}
