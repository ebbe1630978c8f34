use super::super::played::word_of;
use bhs_match::Sealed;
use bhs_model::Event;
use bhs_server::Settled;
use std::alloc::Global;
use std::test::Fail;

/// Returns the sealed matches. Fails if a match did not settle.
pub(super) fn all_sealed(alloc: Global, settled: Vec<Settled>) -> Result<Vec<Sealed>, Fail> {
    let mut sealed = Vec::with_capacity(alloc, settled.len())?;
    for one in settled {
        match one {
            Ok(one) => sealed.push(one.sealed)?,
            Err(_) => return Err(Fail::from("a match does not settle")),
        }
    }
    Ok(sealed)
}

/// How many events the logs have.
pub(super) fn lengths(alloc: Global, sealed: &[Sealed]) -> Result<Vec<usize>, Fail> {
    let mut lengths = Vec::with_capacity(alloc, sealed.len())?;
    for one in sealed {
        lengths.push(one.log().len())?;
    }
    Ok(lengths)
}

/// Returns the agent of an event and the name of its command or delivery; None for a close.
fn named(event: &Event) -> Option<(u16, &'static str)> {
    match event {
        Event::Tell { agent, command } => Some((*agent, word_of(command))),
        Event::Deliver { agent } => Some((*agent, "deliver")),
        Event::Close => None,
    }
}

/// Returns the log as text: for each event its agent's number, its name, and a space.
pub(super) fn log_of(alloc: Global, sealed: &Sealed) -> Result<String, Fail> {
    let mut log = String::new(alloc);
    for kept in sealed.log() {
        let word = match named(&kept.event) {
            Some((agent, name)) => format!(in alloc; "{agent}{name} ")?,
            None => String::from_str(alloc, "close ")?,
        };
        log.push_str(word.as_str())?;
    }
    Ok(log)
}

/// The events of an agent.
pub(super) fn played_by(alloc: Global, sealed: &Sealed, agent: u16) -> Result<String, Fail> {
    let mut log = String::new(alloc);
    for kept in sealed.log() {
        if let Some((other, name)) = named(&kept.event) {
            if other == agent {
                log.push_str(format!(in alloc; "{agent}{name} ")?.as_str())?;
            }
        }
    }
    Ok(log)
}
