//! Copies of what the model is made of, and the texts that marks name.

use bhs_model::{
    Command, DarkLinks, Event, Holes, Kept, Mark, Reply, Setup, Text, read, text_at, text_shared,
};
use std::alloc::{AllocError, Global};
use std::test::Fail;

fn text(alloc: Global, word: &str) -> Result<Text, AllocError> {
    Ok(Text::new(alloc, word)?)
}

fn write(alloc: Global, expect: &str, put: &str) -> Result<Command, AllocError> {
    Ok(Command::Write {
        expect: text(alloc, expect)?,
        put: text(alloc, put)?,
    })
}

#[test]
fn copies_are_equal(rt: HostRuntime) -> Result<(), Fail> {
    let alloc = rt.alloc();
    let setup = Setup {
        home: 0,
        holes: Holes::from(vec![in alloc; 2]?),
        dark: DarkLinks::from(vec![in alloc; (0, 0)]?),
        agents: 2,
        quota: 10,
        board: 8,
    };
    assert_eq!(rt; setup.try_clone()?, setup);
    let event = Event::Tell {
        agent: 1,
        command: write(alloc, "", "abcde€")?,
    };
    assert_eq!(rt; event.try_clone()?, event);
    let deliver = Event::Deliver { agent: 63 };
    assert_eq!(rt; deliver.try_clone()?, deliver);
    let here = Reply::Here {
        ports: 2,
        came: Some(0),
        board: text(alloc, "a")?,
    };
    assert_eq!(rt; here.try_clone()?, here);
    Ok(())
}

#[test]
fn a_place_names_the_text_of_its_write(rt: HostRuntime) -> Result<(), Fail> {
    let alloc = rt.alloc();
    let mut log = Vec::new(alloc);
    log.push(Kept {
        event: Event::Tell {
            agent: 0,
            command: write(alloc, "a", "b")?,
        },
        mark: Some(Mark::Written),
    })?;
    log.push(Kept {
        event: Event::Close,
        mark: None,
    })?;
    for (place, board) in [(Some(0), "b"), (Some(1), ""), (Some(2), ""), (None, "")] {
        assert_eq!(rt; text_at(&log, place), board);
        assert_eq!(rt; text_shared(&log, place)?.as_str(), board);
    }
    let mark = Mark::Changed { board: Some(0) };
    let board = text(alloc, "b")?;
    assert_eq!(rt; read(&log, &mark)?, Reply::Changed { board });
    Ok(())
}
