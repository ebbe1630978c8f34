//! Replays read and written again, and texts that are no replays.

use super::streams::{Narrow, Pieces};
use bhs_match::Sealed;
use bhs_replay::{ReplayFault, WritingFault, read_part, read_replay, write_replay};
use std::alloc::Global;
use std::test::Fail;

const TURNS: u32 = 2_000;

fn read(alloc: Global, text: &[u8], fails: bool) -> Result<Sealed, ReplayFault> {
    read_replay(alloc, &mut Pieces::new(text, 1, fails), TURNS)
}

/// An accusation that may be right: two agents, one node that destroys.
pub const ACCUSED: &str = "{\"agents\":2,\"board\":8,\"dark\":[],\"holes\":[2],\
    \"home\":0,\"links\":[[0,0,1,0],[0,1,2,1],[1,1,2,0]],\"nodes\":3,\"quota\":10,\"replay\":2}
{\"agent\":0,\"do\":\"enter\",\"reply\":{\"board\":\"\",\"from\":null,\"ok\":\"here\",\"ports\":2}}
{\"agent\":0,\"do\":\"accuse\",\"port\":1,\"reply\":{\"ok\":\"noted\"}}
{\"do\":\"close\",\"reply\":null}
{\"end\":3}
";

/// Its head in version 1.
const OLD_HEAD: &str = "{\"agents\":2,\"board\":8,\"hole\":2,\
    \"home\":0,\"links\":[[0,0,1,0],[0,1,2,1],[1,1,2,0]],\"nodes\":3,\"quota\":10,\"replay\":1}";

/// Matches with a dark link, with two black holes, with whiteboards, and with none of what destroys.
const OTHERS: [&str; 5] = [
    "{\"agents\":2,\"board\":8,\"dark\":[[0,1]],\"holes\":[],\
    \"home\":0,\"links\":[[0,0,1,0],[0,1,2,1],[1,1,2,0]],\"nodes\":3,\"quota\":10,\"replay\":2}
{\"agent\":0,\"do\":\"enter\",\"reply\":{\"board\":\"\",\"from\":null,\"ok\":\"here\",\"ports\":2}}
{\"agent\":0,\"do\":\"depart\",\"port\":1,\"reply\":{\"ok\":\"gone\"}}
{\"agent\":0,\"do\":\"deliver\",\"reply\":null}
{\"do\":\"close\",\"reply\":null}
{\"end\":4}
",
    "{\"agents\":2,\"board\":8,\"dark\":[[0,1]],\"holes\":[],\
    \"home\":0,\"links\":[[0,0,1,0],[0,1,2,1],[1,1,2,0]],\"nodes\":3,\"quota\":10,\"replay\":2}
{\"agent\":0,\"do\":\"enter\",\"reply\":{\"board\":\"\",\"from\":null,\"ok\":\"here\",\"ports\":2}}
{\"agent\":0,\"do\":\"depart\",\"port\":0,\"reply\":{\"ok\":\"gone\"}}
{\"agent\":0,\"do\":\"deliver\",\"reply\":{\"board\":\"\",\"from\":0,\"ok\":\"here\",\"ports\":2}}
{\"agent\":0,\"do\":\"depart\",\"port\":1,\"reply\":{\"ok\":\"gone\"}}
{\"agent\":0,\"do\":\"deliver\",\"reply\":{\"board\":\"\",\"from\":0,\"ok\":\"here\",\"ports\":2}}
{\"agent\":0,\"do\":\"accuse\",\"port\":1,\"reply\":{\"ok\":\"noted\"}}
{\"do\":\"close\",\"reply\":null}
{\"end\":7}
",
    "{\"agents\":2,\"board\":8,\"dark\":[],\"holes\":[1,2],\
    \"home\":0,\"links\":[[0,0,1,0],[0,1,2,1],[1,1,2,0]],\"nodes\":3,\"quota\":10,\"replay\":2}
{\"agent\":0,\"do\":\"enter\",\"reply\":{\"board\":\"\",\"from\":null,\"ok\":\"here\",\"ports\":2}}
{\"agent\":0,\"do\":\"accuse\",\"port\":0,\"reply\":{\"ok\":\"noted\"}}
{\"agent\":1,\"do\":\"enter\",\"reply\":{\"board\":\"\",\"from\":null,\"ok\":\"here\",\"ports\":2}}
{\"agent\":1,\"do\":\"accuse\",\"port\":1,\"reply\":{\"ok\":\"noted\"}}
{\"do\":\"close\",\"reply\":null}
{\"end\":5}
",
    "{\"agents\":2,\"board\":8,\"dark\":[],\"holes\":[1,3],\
    \"home\":0,\"links\":[[0,0,1,0],[0,1,3,1],[1,1,2,0],[2,1,3,0]],\"nodes\":4,\"quota\":10,\"replay\":2}
{\"agent\":0,\"do\":\"enter\",\"reply\":{\"board\":\"\",\"from\":null,\"ok\":\"here\",\"ports\":2}}
{\"agent\":0,\"do\":\"write\",\"expect\":\"\",\"put\":\"\\\"\\n€\",\"reply\":{\"ok\":\"written\"}}
{\"agent\":1,\"do\":\"enter\",\"reply\":{\"board\":\"\\\"\\n€\",\"from\":null,\"ok\":\"here\",\"ports\":2}}
{\"agent\":1,\"do\":\"write\",\"expect\":\"\",\"put\":\"a\",\"reply\":{\"board\":\"\\\"\\n€\",\"ok\":\"changed\"}}
{\"agent\":1,\"do\":\"bad\",\"reply\":{\"no\":\"line\"}}
{\"agent\":1,\"do\":\"look\",\"reply\":{\"board\":\"\\\"\\n€\",\"from\":null,\"ok\":\"here\",\"ports\":2}}
{\"agent\":1,\"do\":\"leave\",\"reply\":{\"ok\":\"bye\"}}
{\"do\":\"close\",\"reply\":null}
{\"end\":8}
",
    "{\"agents\":1,\"board\":0,\"dark\":[],\"holes\":[],\
    \"home\":1,\"links\":[[0,0,1,0],[0,1,2,1],[1,1,2,0]],\"nodes\":3,\"quota\":1,\"replay\":2}
{\"do\":\"close\",\"reply\":null}
{\"end\":1}
",
];

#[test]
fn replays_are_read_and_written_again(rt: HostRuntime) -> Result<(), Fail> {
    let alloc = rt.alloc();
    let mut old = String::from_str(alloc, OLD_HEAD)?;
    old.push_str(&ACCUSED[125..])?;
    for (text, again) in [
        (ACCUSED, ACCUSED),
        (old.as_str(), ACCUSED),
        (OTHERS[0], OTHERS[0]),
        (OTHERS[1], OTHERS[1]),
        (OTHERS[2], OTHERS[2]),
        (OTHERS[3], OTHERS[3]),
        (OTHERS[4], OTHERS[4]),
    ] {
        let sealed = read(alloc, text.as_bytes(), false)?;
        for room in 0..=again.len() {
            let mut writer = Narrow::new(alloc, room, 1, true);
            let fault = write_replay(alloc, &sealed, &mut writer).err();
            let wanted = if room < again.len() {
                Some(WritingFault::Write)
            } else {
                None
            };
            assert_eq!(rt; fault, wanted, "with room for {room}");
            assert_eq!(rt; writer.taken.as_slice(), &again.as_bytes()[..room]);
        }
    }
    Ok(())
}

/// A replay of which one line is another, and its fault.
const ROWS: [(usize, &str, ReplayFault); 24] = [
    (0, "x", ReplayFault::Head),
    (0, "", ReplayFault::Head),
    (1, "x", ReplayFault::Line { line: 2 }),
    (1, "", ReplayFault::Line { line: 2 }),
    (1, "{\"end\":0}", ReplayFault::End),
    (1, "{\"end\":18446744073709551616}", ReplayFault::End),
    (1, "{\"end\":01}", ReplayFault::Line { line: 2 }),
    (1, "{\"end\":-1}", ReplayFault::Line { line: 2 }),
    (
        1,
        "{\"agent\":0,\"do\":\"look\",\"reply\":{\"no\":\"outside\"}}",
        ReplayFault::Event { line: 2 },
    ),
    (
        1,
        "{\"agent\":2,\"do\":\"enter\",\"reply\":{\"no\":\"agent\"}}",
        ReplayFault::Event { line: 2 },
    ),
    (
        1,
        "{\"agent\":65536,\"do\":\"enter\",\"reply\":{\"no\":\"agent\"}}",
        ReplayFault::Line { line: 2 },
    ),
    (
        1,
        "{\"agent\":0,\"do\":\"enter\",\"reply\":{\"board\":\"\",\"from\":null,\"ok\":\"here\",\"ports\":3}}",
        ReplayFault::Differs { line: 2 },
    ),
    (
        1,
        "{\"agent\":0,\"do\":\"enter\",\"reply\":{\"board\":\"\",\"from\":null, \"ok\":\"here\",\"ports\":2}}",
        ReplayFault::Line { line: 2 },
    ),
    (
        1,
        "{\"agent\":0,\"do\":\"enter\",\"reply\":null}",
        ReplayFault::Line { line: 2 },
    ),
    (
        1,
        "{\"agent\":0,\"do\":\"enter\",\"reply\":{\"no\":\"key\"}}",
        ReplayFault::Line { line: 2 },
    ),
    (
        1,
        "{\"agent\":0,\"do\":\"deliver\",\"reply\":null}",
        ReplayFault::Event { line: 2 },
    ),
    (
        2,
        "{\"agent\":0,\"do\":\"accuse\",\"port\":2,\"reply\":{\"ok\":\"noted\"}}",
        ReplayFault::Differs { line: 3 },
    ),
    (
        2,
        "{\"agent\":0,\"do\":\"accuse\",\"port\":1,\"reply\":{\"ok\":\"noted\"}}\r",
        ReplayFault::Line { line: 3 },
    ),
    (
        3,
        "{\"do\":\"close\",\"reply\":{\"ok\":\"over\"}}",
        ReplayFault::Line { line: 4 },
    ),
    (
        3,
        "{\"agent\":0,\"do\":\"leave\",\"reply\":{\"ok\":\"bye\"}}",
        ReplayFault::Event { line: 4 },
    ),
    (
        4,
        "{\"do\":\"close\",\"reply\":null}",
        ReplayFault::Line { line: 5 },
    ),
    (4, "{\"end\":2}", ReplayFault::End),
    (4, "{\"end\":3}\n", ReplayFault::End),
    (4, "{\"end\":3}\nx", ReplayFault::End),
];

#[test]
fn what_is_no_replay_has_its_fault(rt: HostRuntime) -> Result<(), Fail> {
    let alloc = rt.alloc();
    for (place, line, fault) in ROWS {
        let mut text = String::new(alloc);
        for (number, own) in ACCUSED.lines().enumerate() {
            if number == place {
                text.push_str(line)?;
            } else {
                text.push_str(own)?;
            }
            text.push('\n')?;
        }
        assert_eq!(rt;
            read(alloc, text.as_bytes(), false).err(),
            Some(fault),
            "{line}"
        );
    }
    let text = ACCUSED.as_bytes();
    for size in 0..text.len() {
        let fault = if size < 126 {
            ReplayFault::Head
        } else {
            ReplayFault::End
        };
        assert_eq!(rt;
            read(alloc, &text[..size], false).err(),
            Some(fault),
            "cut to {size}"
        );
        assert_eq!(rt;
            read(alloc, &text[..size], true).err(),
            Some(ReplayFault::Read),
            "{size} and no more"
        );
    }
    assert_eq!(rt; read(alloc, text, true).err(), Some(ReplayFault::Read));
    assert_eq!(rt; read(alloc, b"x\n", true).err(), Some(ReplayFault::Head));
    for (turns, fault) in [
        (0, Some(ReplayFault::Turns)),
        (302, Some(ReplayFault::Turns)),
        (303, None),
    ] {
        let mut reader = Pieces::new(text, 1, false);
        assert_eq!(rt;
            read_replay(alloc, &mut reader, turns).err(),
            fault,
            "{turns} turns"
        );
    }
    Ok(())
}

#[test]
fn parts_that_are_cut_at_every_byte_are_read(rt: HostRuntime) -> Result<(), Fail> {
    let alloc = rt.alloc();
    for end in 0..=ACCUSED.len() {
        let text = &ACCUSED.as_bytes()[..end];
        let lines = text.iter().filter(|byte| **byte == b'\n').count();
        match read_part(alloc, &mut Pieces::new(text, 1, false), TURNS) {
            Ok(sealed) => assert!(rt; lines > 0 && sealed.log().len() == lines.min(3)),
            Err(fault) => assert!(rt; lines == 0 && fault == ReplayFault::Head),
        }
    }
    Ok(())
}
