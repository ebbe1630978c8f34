//! A rehearsal answers what it answers with ample memory, or it wants memory, and then for good.

use super::mark;
use bhs_cli::built_in;
use bhs_rehearsal::{Out, Rehearsal, RehearsalFault};
use std::alloc::Global;
use std::process::Abort;
use std::test::Fail;

/// A call of a rehearsal.
#[derive(Clone, Copy)]
enum Call {
    Feed(u16, &'static str),
    FeedCopied(u16, &'static str),
    End(u16),
    Draw(u32),
    Deliver(u16),
}

/// Two agents enter and write, the second too late; one departs and arrives, by a word and by its number, and the
/// other leaves at its end.
const CALLS: [(Call, u16, &str); 10] = [
    (
        Call::Feed(0, "{\"do\":\"enter\",\"key\":\"ka\"}\n"),
        0,
        "{\"board\":\"\",\"from\":null,\"ok\":\"here\",\"ports\":2}\n",
    ),
    (
        Call::Feed(1, "{\"do\":\"enter\",\"key\":\"kb\"}\n"),
        1,
        "{\"board\":\"\",\"from\":null,\"ok\":\"here\",\"ports\":2}\n",
    ),
    (
        Call::Feed(0, "{\"do\":\"write\",\"expect\":\"\",\"put\":\"a\"}\n"),
        0,
        "{\"ok\":\"written\"}\n",
    ),
    (
        Call::Feed(1, "{\"do\":\"write\",\"expect\":\"\",\"put\":\"b\"}\n"),
        1,
        "{\"board\":\"a\",\"ok\":\"changed\"}\n",
    ),
    (
        Call::Feed(0, "{\"do\":\"depart\",\"port\":0}\n{\"do\":\"look\"}\n"),
        0,
        "{\"ok\":\"gone\"}\n",
    ),
    (Call::FeedCopied(0, "{\"do\":\"look\"}\n{\"do\""), 0, ""),
    (
        Call::Draw(0),
        0,
        "{\"board\":\"\",\"from\":0,\"ok\":\"here\",\"ports\":2}
{\"board\":\"\",\"from\":0,\"ok\":\"here\",\"ports\":2}
{\"board\":\"\",\"from\":0,\"ok\":\"here\",\"ports\":2}\n",
    ),
    (
        Call::Feed(0, ":\"depart\",\"port\":0}\n"),
        0,
        "{\"ok\":\"gone\"}\n",
    ),
    (
        Call::Deliver(0),
        0,
        "{\"board\":\"a\",\"from\":0,\"ok\":\"here\",\"ports\":2}\n",
    ),
    (Call::End(1), 1, ""),
];

fn made(stage: &mut Rehearsal<'static>, call: Call) -> Result<Option<Out>, RehearsalFault> {
    match call {
        Call::Feed(conn, text) => stage.feed(conn, text.as_bytes()),
        Call::FeedCopied(conn, text) => stage.feed_copied(conn, text.as_bytes()),
        Call::End(conn) => stage.end(conn),
        Call::Draw(word) => stage.draw(0, word),
        Call::Deliver(agent) => stage.deliver(0, agent),
    }
}

fn is_sent(out: Option<Out>, conn: u16, bytes: &str) -> bool {
    match out {
        Some(out) => out.conn == conn && out.bytes.as_slice() == bytes.as_bytes(),
        None => bytes.is_empty(),
    }
}

/// Returns whether a call is answered normally as long as no request was refused, and by a memory fault from then on.
fn is_answered(stage: &mut Rehearsal<'static>, call: Call, conn: u16, bytes: &str) -> bool {
    let has_failed = stage.failed();
    match made(stage, call) {
        Ok(out) => !has_failed && !stage.failed() && is_sent(out, conn, bytes),
        Err(fault) => fault == RehearsalFault::Memory && stage.failed(),
    }
}

fn wants_for_good<R: Abort>(rt: &R, stage: &mut Rehearsal<'static>) {
    assert_eq!(rt; stage.feed(256, b"\n"), Err(RehearsalFault::Memory));
    assert_eq!(rt; stage.end(0), Err(RehearsalFault::Memory));
    assert_eq!(rt; stage.draw(0, 0), Err(RehearsalFault::Memory));
    assert_eq!(rt; stage.close(1), Err(RehearsalFault::Memory));
}

fn rehearsal(alloc: Global) -> Result<Rehearsal<'static>, Fail> {
    Ok(Rehearsal::new(alloc, built_in(alloc)?, 256)?)
}

#[test]
fn want_of_memory_is_for_good(rt: HostRuntime) -> Result<(), Fail> {
    let mut stage = rehearsal(rt.alloc())?;
    mark(rt.alloc())?;
    for (call, conn, bytes) in CALLS {
        assert!(rt; is_answered(&mut stage, call, conn, bytes), "{bytes}");
    }
    if stage.failed() {
        wants_for_good(&rt, &mut stage);
    }
    mark(rt.alloc())?;
    assert_eq!(rt; stage.into_ready().len(), 1);
    Ok(())
}

/// Who waits is told that the match is over, or the rehearsal has failed.
#[test]
fn a_close_may_want_memory(rt: HostRuntime) -> Result<(), Fail> {
    let mut stage = rehearsal(rt.alloc())?;
    for (conn, key) in [(3, "ka"), (5, "kb")] {
        let line = format!(in rt.alloc();
            "{{\"do\":\"enter\",\"key\":\"{key}\"}}\n{{\"do\":\"depart\",\"port\":1}}\n"
        )?;
        stage.feed_copied(conn, line.as_bytes())?;
    }
    mark(rt.alloc())?;
    match stage.close(0) {
        Ok(outs) => {
            assert_eq!(rt; (outs.len(), stage.failed()), (2, false));
            for (out, conn) in outs.into_iter().zip([3, 5]) {
                assert!(rt; is_sent(Some(out), conn, "{\"ok\":\"over\"}\n"));
            }
        }
        Err(fault) => {
            assert_eq!(rt; (fault, stage.failed()), (RehearsalFault::Memory, true));
            wants_for_good(&rt, &mut stage);
        }
    }
    mark(rt.alloc())
}
