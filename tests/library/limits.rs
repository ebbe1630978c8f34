//! Streams that fail, turns that run out, and the names of faults.

use super::streams::{Narrow, Pieces};
use bhs_cli::{Fault, built_in, report};
use bhs_cli_rehearse::rehearse;
use bhs_cli_serve::Machine;
use bhs_cli_run::run;
use std::alloc::Global;
use std::net::{Net, TcpListener, TcpStream};
use std::process::Abort;
use std::test::Fail;

const ROAD: &str = r#"0 {"do":"enter","key":"ka"}
0 {"do":"depart","port":0}
draw 0 0
"#;

const SEEN: &str = r#"0 {"board":"","from":null,"ok":"here","ports":2}
0 {"ok":"gone"}
0 {"board":"","from":0,"ok":"here","ports":2}
"#;

/// A run on streams that may fail, with its expected exit status and output.
#[derive(Clone, Copy)]
struct Case<'a> {
    words: &'a [&'static str],
    script: &'a [u8],
    // whether reading fails behind the script
    fails: bool,
    // how many bytes go out before writing fails
    room: usize,
    told: &'a str,
    status: u8,
}

fn ends<R: Abort + Machine + Net<Listener = TcpListener, Stream = TcpStream>>(
    rt: &R,
    alloc: Global,
    case: &Case<'_>,
    printed: &[u8],
) -> Result<(), Fail> {
    let mut reader = Pieces::new(case.script, 1, case.fails);
    let mut writer = Narrow::new(alloc, case.room, 1000, true);
    let mut errors = Vec::new(alloc);
    let status = run(alloc, rt, case.words, &mut reader, &mut writer, &mut errors);
    assert_eq!(rt; errors.as_slice(), case.told.as_bytes());
    assert_eq!(rt; writer.taken.as_slice(), printed);
    assert_eq!(rt; status, case.status);
    Ok(())
}

#[test]
fn streams_that_fail_are_told(rt: HostRuntime) -> Result<(), Fail> {
    let plays = Case {
        words: &["rehearse"],
        script: ROAD.as_bytes(),
        fails: false,
        room: 1000,
        told: "",
        status: 0,
    };
    ends(&rt, rt.alloc(), &plays, SEEN.as_bytes())?;
    let fails = Case {
        fails: true,
        told: "script: read\n",
        status: 6,
        ..plays
    };
    ends(&rt, rt.alloc(), &fails, b"")?;
    for room in [0, 1, 49, 50, 100] {
        let full = Case {
            room,
            told: "output: write\n",
            status: 6,
            ..plays
        };
        ends(
            &rt,
            rt.alloc(),
            &full,
            SEEN.as_bytes().get(..room).unwrap_or(b"?"),
        )?;
    }
    Ok(())
}

#[test]
fn turns_may_run_out(rt: HostRuntime) -> Result<(), Fail> {
    let mut reader = Pieces::new(ROAD.as_bytes(), 1, false);
    let mut output = Vec::new(rt.alloc());
    let played = rehearse(
        rt.alloc(),
        built_in(rt.alloc())?,
        &mut reader,
        &mut output,
        20,
    );
    assert_eq!(rt; played.err(), Some(Fault::Turns));
    assert!(rt; output.is_empty());
    Ok(())
}

#[test]
fn faults_that_no_file_makes_have_names(rt: HostRuntime) -> Result<(), Fail> {
    for (fault, told, status) in [
        (Fault::Turns, "script: turns\n", 6),
        (Fault::Memory, "script: memory\n", 5),
    ] {
        let mut errors = Vec::new(rt.alloc());
        assert_eq!(rt; report("script", fault, &mut errors), status);
        assert_eq!(rt; errors.as_slice(), told.as_bytes());
    }
    Ok(())
}
