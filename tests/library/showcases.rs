use bhs_referee::{Outcome, Verdict};
use bhs_standings::{Show, Showcase};
use std::test::Fail;
use std::thread;

const SOLVED: Verdict = Verdict {
    outcome: Outcome::Solved,
    moves: 1,
    lost: 0,
};

const WRONG: Verdict = Verdict {
    outcome: Outcome::Wrong,
    moves: 1,
    lost: 0,
};

#[test]
fn a_verdict_is_shown_once(rt: HostRuntime) -> Result<(), Fail> {
    let showcase = Showcase::new(rt.alloc(), 2)?;
    let Some(mut mine) = showcase.note(0) else {
        return Err(Fail::from("a note of match 0"));
    };
    assert_eq!(rt; showcase.shown(0, &mut mine), None);
    assert_eq!(rt; showcase.show(0, SOLVED, &mut mine)?, Show::Set);
    assert_eq!(rt; showcase.show(0, WRONG, &mut mine)?, Show::Taken);
    assert_eq!(rt; showcase.shown(0, &mut mine), Some(SOLVED));
    assert_eq!(rt; showcase.show(2, SOLVED, &mut mine)?, Show::NoGame);
    assert!(rt; showcase.note(2).is_none());
    Ok(())
}

/// What a thread that shows a verdict of its own is answered, and the verdict that it then sees.
fn shows(showcase: &Showcase, moves: u32) -> Option<(Show, Verdict)> {
    let mut note = showcase.note(0)?;
    let show = showcase
        .show(0, Verdict { moves, ..SOLVED }, &mut note)
        .ok()?;
    Some((show, showcase.shown(0, &mut note)?))
}

#[test]
fn sixteen_threads_see_one_verdict(rt: HostRuntime) -> Result<(), Fail> {
    let alloc = rt.alloc();
    let showcase = Showcase::new(alloc, 1)?;
    let seen = thread::map_indices(&rt, alloc, 16, &|moves| shows(&showcase, moves as u32))?;
    let mut set = None;
    for (moves, one) in seen.iter().enumerate() {
        if let Some((Show::Set, _)) = one {
            assert!(rt; set.is_none());
            set = Some(moves);
        }
    }
    for one in &seen {
        assert_eq!(rt; one.map(|(_, verdict)| verdict.moves as usize), set);
    }
    Ok(())
}

#[test]
fn notes_agree(rt: HostRuntime) -> Result<(), Fail> {
    let showcase = Showcase::new(rt.alloc(), 1)?;
    let (Some(mut mine), Some(mut other)) = (showcase.note(0), showcase.note(0)) else {
        return Err(Fail::from("a note of match 0"));
    };
    assert_eq!(rt; showcase.show(0, SOLVED, &mut mine)?, Show::Set);
    assert_eq!(rt; showcase.shown(0, &mut other), Some(SOLVED));
    let again = other.again();
    mine.compare(again);
    Ok(())
}
