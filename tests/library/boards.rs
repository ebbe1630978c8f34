//! Whiteboards.

use bhs_state::{Board, Swap};

#[test]
fn a_write_is_too_long_or_differs_or_is_taken(rt: HostRuntime) {
    let mut board = Board::new(1);
    for (now, expect, put, place, swap, last) in [
        ("", "", "ab", 3, Swap::Long, None),
        ("", "x", "ab", 4, Swap::Long, None),
        ("", "x", "a", 5, Swap::Differs, None),
        ("", "", "a", 0, Swap::Took, Some(0)),
        ("a", "", "b", 1, Swap::Differs, Some(0)),
        ("a", "a", "", 2, Swap::Took, Some(2)),
    ] {
        assert_eq!(rt; board.swap(now, expect, put, place), swap);
        assert_eq!(rt; board.last(), last);
    }
}
