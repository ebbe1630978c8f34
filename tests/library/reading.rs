//! Texts read from memory and from readers that fail.

use super::streams::Pieces;
use bhs_stream::{Input, ReadFault, read_text};
use std::io;
use std::test::Fail;

const LONG: [u8; 20_000] = [b'x'; 20_000];

#[test]
fn reads_a_buffer_at_a_time(rt: HostRuntime) -> Result<(), Fail> {
    let text = read_text(rt.alloc(), &mut LONG.as_slice(), 20_000, 3)?;
    assert_eq!(rt; text.as_slice(), LONG.as_slice());
    assert_eq!(rt;
        read_text(rt.alloc(), &mut LONG.as_slice(), 20_000, 2),
        Err(ReadFault::Turns)
    );
    assert_eq!(rt;
        read_text(rt.alloc(), &mut LONG.as_slice(), 19_999, 3),
        Err(ReadFault::Text)
    );
    Ok(())
}

#[test]
fn a_read_that_ends_or_fails_takes_a_turn(rt: HostRuntime) -> Result<(), Fail> {
    for (fails, turns, want) in [
        (false, 0, Some(ReadFault::Turns)),
        (false, 5, Some(ReadFault::Turns)),
        (false, 6, None),
        (false, 7, None),
        (true, 0, Some(ReadFault::Turns)),
        (true, 5, Some(ReadFault::Turns)),
        (true, 6, Some(ReadFault::Read)),
        (true, 7, Some(ReadFault::Read)),
    ] {
        let mut reader = Pieces::new(b"look\n", 1, fails);
        let got = read_text(rt.alloc(), &mut reader, 100, turns);
        assert_eq!(rt; got.err(), want, "at {turns} turns");
        assert_eq!(rt; reader.reads, u64::from(turns.min(6)), "at {turns} turns");
    }
    Ok(())
}

#[test]
fn only_a_failing_read_is_the_fault_read(rt: HostRuntime) -> Result<(), Fail> {
    let input = b"0123456789";
    for end in 0..=input.len() {
        for limit in 0..12 {
            for fails in [false, true] {
                let mut reader = Pieces::new(&input[..end], 1, fails);
                let got = read_text(rt.alloc(), &mut reader, limit, 20);
                if end > limit {
                    assert_eq!(rt; got, Err(ReadFault::Text));
                    assert_eq!(rt; reader.reads, limit as u64 + 1);
                } else if fails {
                    assert_eq!(rt; got, Err(ReadFault::Read));
                } else {
                    assert_eq!(rt; got?.as_slice(), &input[..end]);
                }
            }
        }
    }
    Ok(())
}

/// An input that does not implement `Read`.
#[derive(Drop)]
struct Dead {
    asked: u64,
}

impl Input for Dead {
    ghost use Rattle.std.specs.Prelude.{◌≡◌};
    ghost use Rattle.bhs_stream.specs.Streams.{Fails};

    ghost gives = { λ old chunk new. chunk ≡ Fails };

    fn read_some(&mut self, _buffer: &mut [u8]) -> io::Result<usize> {
        self.asked = self.asked.saturating_add(1);
        Err(io::Error::other("the line went dead"))
    }
}

#[test]
fn a_dead_input_is_asked_once(rt: HostRuntime) -> Result<(), Fail> {
    let mut dead = Dead { asked: 0 };
    assert_eq!(rt;
        read_text(rt.alloc(), &mut dead, 10, 5).err(),
        Some(ReadFault::Read)
    );
    assert_eq!(rt; dead.asked, 1);
    Ok(())
}
