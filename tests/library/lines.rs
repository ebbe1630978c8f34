//! Lines that come in pieces.

use bhs_wire::{Lines, Raw};
use std::test::Fail;

const PART: [u8; 20_000] = [b'a'; 20_000];

/// Returns a line's bytes, or `over` if the line exceeds the limit.
fn told<'a>(line: &'a Raw<'_>) -> &'a [u8] {
    match line {
        Raw::Whole(bytes) => bytes,
        Raw::Over => b"over",
    }
}

#[test]
fn an_unfinished_line_is_held_until_it_is_too_long(rt: HostRuntime) -> Result<(), Fail> {
    let mut lines = Lines::new(rt.alloc());
    for held in [20_000, 40_000, 60_000, 0, 0] {
        assert!(rt; lines.feed(&PART)?.is_empty());
        assert_eq!(rt; lines.held(), held);
    }
    let found = lines.feed(b"\n{\"do\":\"look\"}\n \t\r\n{\"do")?;
    assert_eq!(rt; found.len(), 2);
    assert_eq!(rt; told(&found[0]), b"over".as_slice());
    assert_eq!(rt; told(&found[1]), b"{\"do\":\"look\"}".as_slice());
    assert_eq!(rt; lines.held(), 4);
    Ok(())
}
