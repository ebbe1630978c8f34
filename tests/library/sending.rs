//! Bytes sent to memory and to writers that fail.

use super::streams::Narrow;
use bhs_stream::{WriteFault, finish, send};
use std::io::BufWriter;
use std::test::Fail;

#[test]
fn a_writer_that_stops_has_the_first_bytes(rt: HostRuntime) -> Result<(), Fail> {
    let bytes = b"0123456789";
    for room in 0..12 {
        for piece in 1..4 {
            for fails in [false, true] {
                let mut writer = Narrow::new(rt.alloc(), room, piece, fails);
                let sent = send(&mut writer, bytes);
                let took = room.min(bytes.len());
                assert_eq!(rt; sent.is_ok(), room >= bytes.len(), "with room for {room}");
                assert_eq!(rt; writer.taken.as_slice(), &bytes[..took]);
            }
        }
    }
    Ok(())
}

#[test]
fn no_bytes_are_no_write(rt: HostRuntime) -> Result<(), Fail> {
    let mut writer = Narrow::new(rt.alloc(), 0, 1, true);
    send(&mut writer, b"")?;
    assert_eq!(rt; writer.writes, 0);
    assert_eq!(rt; finish(&mut writer), Err(WriteFault));
    Ok(())
}

#[test]
fn finish_empties_a_buffered_writer(rt: HostRuntime) -> Result<(), Fail> {
    for (room, want) in [(5, Ok(())), (4, Err(WriteFault))] {
        let narrow = Narrow::new(rt.alloc(), room, 3, false);
        let mut writer = BufWriter::new(rt.alloc(), narrow)?;
        send(&mut writer, b"look\n")?;
        assert!(rt; writer.get_ref().taken.is_empty());
        assert_eq!(rt; finish(&mut writer), want);
        assert_eq!(rt; writer.get_ref().taken.as_slice(), &b"look\n"[..room]);
    }
    Ok(())
}
