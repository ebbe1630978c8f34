//! A buffer that is lent to a call keeps its contents if the call runs out of memory.

use super::mark;
use bhs_net::Memory;
use bhs_session::{push_denial, push_reply};
use bhs_wire::{Denial, LentReply, Lines, Raw, push_line};
use std::alloc::Global;
use std::collections::VecDeque;
use std::test::Fail;

const KEPT: &[u8] = b"what was there";

/// A text without room to which a call adds, once more if memory ran out in it.
fn added(
    alloc: Global,
    mut call: impl FnMut(&mut Vec<u8>) -> Result<(), Memory>,
) -> Result<Vec<u8>, Fail> {
    let mut text = Vec::from_slice(alloc, KEPT)?;
    mark(alloc)?;
    if call(&mut text).is_err() {
        if !text.as_slice().starts_with(KEPT) {
            return Err(Fail::from("the text lost what it had"));
        }
        text.truncate(KEPT.len());
        call(&mut text).map_err(|_| Fail::from("the second call wants something"))?;
    }
    mark(alloc)?;
    Ok(text)
}

fn is_added(text: &[u8], line: &[u8]) -> bool {
    text.len() == KEPT.len() + line.len() && text.starts_with(KEPT) && text.ends_with(line)
}

#[test]
fn a_text_keeps_what_it_had(rt: HostRuntime) -> Result<(), Fail> {
    let alloc = rt.alloc();
    let denial = added(alloc, |text| push_denial(Denial::Taken, text))?;
    assert!(rt; is_added(&denial, b"{\"no\":\"taken\"}\n"));
    let here = || LentReply::Here {
        ports: 2,
        came: Some(10),
        board: "\"\n",
    };
    let line = "{\"board\":\"\\\"\\n\",\"from\":10,\"ok\":\"here\",\"ports\":2}";
    let plain = added(alloc, |text| push_line(alloc, text, here()))?;
    assert!(rt; is_added(&plain, line.as_bytes()));
    let ended = format!(in alloc; "{line}\n")?;
    let reply = added(alloc, |text| push_reply(alloc, here(), text))?;
    assert!(rt; is_added(&reply, ended.as_bytes()));
    Ok(())
}

fn is_whole(line: Option<&Raw<'_>>, bytes: &[u8]) -> bool {
    match line {
        Some(Raw::Whole(line)) => line.as_slice() == bytes,
        _ => false,
    }
}

/// A line is found before; two come in a piece, the first of which was held in part.
#[test]
fn found_lines_stay_found(rt: HostRuntime) -> Result<(), Fail> {
    let alloc = rt.alloc();
    let mut lines = Lines::new(alloc);
    let mut found = VecDeque::new(alloc);
    lines.feed_into(b"one\ntw", &mut found)?;
    mark(alloc)?;
    if lines
        .feed_into(b"o\nthree\nfour\nfive\nsix", &mut found)
        .is_err()
    {
        if lines.held() != 2 || !is_whole(found.front(), b"one") {
            return Err(Fail::from("a line is lost"));
        }
        while found.len() > 1 {
            found.pop_back();
        }
        lines
            .feed_into(b"o\nthree\nfour\nfive\nsix", &mut found)
            .map_err(|_| Fail::from("the second call wants something"))?;
    }
    mark(alloc)?;
    for line in [b"one".as_slice(), b"two", b"three", b"four", b"five"] {
        assert!(rt; is_whole(found.pop_front().as_ref(), line));
    }
    assert_eq!(rt; (found.len(), lines.held()), (0, 3));
    Ok(())
}
