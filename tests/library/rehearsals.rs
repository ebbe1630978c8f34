//! Rehearsals, call by call: what a script cannot say.

use bhs_cli::built_in;
use bhs_rehearsal::{Out, Rehearsal, RehearsalFault};
use std::alloc::Global;
use std::test::Fail;

const ENTER: &[u8] = b"{\"do\":\"enter\",\"key\":\"ka\"}\n";

const DEPART: &[u8] = b"{\"do\":\"depart\",\"port\":0}\n";

const HERE: &[u8] = b"{\"board\":\"\",\"from\":null,\"ok\":\"here\",\"ports\":2}\n";

const GONE: &[u8] = b"{\"ok\":\"gone\"}\n";

const COME: &[u8] = b"{\"board\":\"\",\"from\":0,\"ok\":\"here\",\"ports\":2}\n";

fn rehearsal(alloc: Global) -> Result<Rehearsal<'static>, Fail> {
    Ok(Rehearsal::new(alloc, built_in(alloc)?, 256)?)
}

/// Whether a call sent this to connection 255 and nothing else.
fn is_sent(sent: Result<Option<Out>, RehearsalFault>, bytes: &[u8]) -> bool {
    match sent {
        Ok(Some(out)) => out.conn == 255 && out.bytes.as_slice() == bytes,
        _ => false,
    }
}

#[test]
fn calls_give_what_is_sent(rt: HostRuntime) -> Result<(), Fail> {
    let mut stage = rehearsal(rt.alloc())?;
    assert!(rt; is_sent(stage.feed(255, ENTER), HERE));
    assert!(rt; is_sent(stage.feed(255, DEPART), GONE));
    assert!(rt; is_sent(stage.draw(0, 0), COME));
    assert!(rt; stage.end(255) == Ok(None));
    assert!(rt; stage.close(0) == Ok(Vec::new(rt.alloc())));
    assert!(rt; !stage.failed());
    let ready = stage.into_ready();
    assert_eq!(rt; ready.len(), 1);
    assert_eq!(rt; ready[0].team.as_str(), "red");
    assert_eq!(rt; ready[0].game.log().len(), 5);
    Ok(())
}

#[test]
fn what_is_taken_back_is_not_sent_again(rt: HostRuntime) -> Result<(), Fail> {
    let mut stage = rehearsal(rt.alloc())?;
    if let Ok(Some(out)) = stage.feed(255, ENTER) {
        stage.take_back(out);
    }
    assert!(rt; is_sent(stage.feed(255, DEPART), GONE));
    assert!(rt; is_sent(stage.draw(0, 0), COME));
    Ok(())
}

#[test]
fn what_is_not_there_is_told(rt: HostRuntime) -> Result<(), Fail> {
    let mut stage = rehearsal(rt.alloc())?;
    assert_eq!(rt; stage.feed(256, ENTER), Err(RehearsalFault::Conn));
    assert_eq!(rt; stage.end(256), Err(RehearsalFault::Conn));
    assert_eq!(rt; stage.draw(1, 0), Err(RehearsalFault::NoGame));
    assert_eq!(rt; stage.close(1), Err(RehearsalFault::NoGame));
    assert!(rt; !stage.failed());
    Ok(())
}
