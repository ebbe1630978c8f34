//! Whole sessions over memory, as rows of text, with a port that answers from a list.
//!
//! A row has a title and these lines: `>` of the client, `~` its last bytes without a line feed, `=` the port's
//! answers, `<` what is written, `~<` the last bytes of it without a line feed, `?` what the port is asked, `!` how the
//! session ends. After `#` stands that the read behind the last byte fails, how many turns there are, or how many bytes
//! go out before writing fails. `␠`, `␉` and `␍` stand for a space, a tab and a carriage return. Rows are parted by
//! empty lines.

use super::played::word_of;
use super::streams::{Narrow, Pieces};
use bhs_model::{Command, MAX_LINE, Reply, Text};
use bhs_net::Memory;
use bhs_session::{Entered, Port, serve};
use bhs_wire::Raw;
use std::alloc::Global;
use std::process::Abort;
use std::test::Fail;

const SESSIONS: &str = r#"Who goes is told to leave.
> {"do":"enter","key":"ka"}
> {"do":"look"}
= H- H- bye
< {"board":"","from":null,"ok":"here","ports":2}
< {"board":"","from":null,"ok":"here","ports":2}
? key ka, look, leave
! InputEnded

So is one whose line fails.
# fails
> {"do":"enter","key":"ka"}
> {"do":"look"}
= H- H- bye
< {"board":"","from":null,"ok":"here","ports":2}
< {"board":"","from":null,"ok":"here","ports":2}
? key ka, look, leave
! ReadFault

The end of the input is one read more.
# turns 2
> {"do":"enter","key":"ka"}
> {"do":"look"}
= H- H- bye
< {"board":"","from":null,"ok":"here","ports":2}
< {"board":"","from":null,"ok":"here","ports":2}
? key ka, look, leave
! InputEnded

Turns may run out.
# turns 1
> {"do":"enter","key":"ka"}
> {"do":"look"}
= H- H- bye
< {"board":"","from":null,"ok":"here","ports":2}
< {"board":"","from":null,"ok":"here","ports":2}
? key ka, look, leave
! Turns

Who did not enter does not leave.
# turns 0
> {"do":"enter","key":"ka"}
> {"do":"look"}
! Turns

An empty input.
! InputEnded

A line that fails at once.
# fails
! ReadFault

Blank lines, and one without its end.
> ␠
> ␍
~ {"do":"enter",
! InputEnded

A key that is unknown.
> {"do":"enter","key":"ka"}
> {"do":"look"}
= key
< {"no":"key"}
? key ka
! Denied

A key that was used.
> {"do":"enter","key":"ka"}
> {"do":"look"}
= taken
< {"no":"taken"}
? key ka
! Denied

A first line that is no enter.
> {"do":"look"}
< {"no":"enter"}
! Denied

An enter without a key.
> {"do":"enter"}
< {"no":"enter"}
! Denied

A denial that does not go out whole.
# room 5
> {"do":"enter","key":"ka"}
> {"do":"look"}
= key
~< {"no"
? key ka
! WriteFault

Bye ends it.
> {"do":"enter","key":"ka"}
> {"do":"look"}
= bye
< {"ok":"bye"}
? key ka
! Bye

Noted ends it.
> {"do":"enter","key":"ka"}
> {"do":"look"}
= noted
< {"ok":"noted"}
? key ka
! Noted

Over ends it.
> {"do":"enter","key":"ka"}
> {"do":"look"}
= over
< {"ok":"over"}
? key ka
! Over

Over may be the news.
> {"do":"enter","key":"ka"}
> {"do":"look"}
= gone over
< {"ok":"gone"}
< {"ok":"over"}
? key ka, news
! Over

A last line that does not go out whole.
# room 9
> {"do":"enter","key":"ka"}
> {"do":"look"}
= bye
~< {"ok":"by
? key ka
! WriteFault

News come before the next line.
> {"do":"enter","key":"ka"}
> {"do":"depart","port":0}
> {"do":"look"}
= H- gone H0 H0 over
< {"board":"","from":null,"ok":"here","ports":2}
< {"ok":"gone"}
< {"board":"","from":0,"ok":"here","ports":2}
< {"board":"","from":0,"ok":"here","ports":2}
? key ka, depart, news, look, leave
! InputEnded

News that do not go out whole.
# room 66
> {"do":"enter","key":"ka"}
> {"do":"depart","port":0}
> {"do":"look"}
= H- gone H0 H0 over
< {"board":"","from":null,"ok":"here","ports":2}
< {"ok":"gone"}
~< {"boa
? key ka, depart, news, leave
! WriteFault

No news are asked for after a Gone that was not written.
# room 60
> {"do":"enter","key":"ka"}
> {"do":"depart","port":0}
> {"do":"look"}
= H- gone H0 H0 over
< {"board":"","from":null,"ok":"here","ports":2}
~< {"ok":"gone"}
? key ka, depart, leave
! WriteFault

A later enter is a command; blank lines are skipped; a last line without its end is none.
> ␠
> {"do":"enter","key":"ka"}␍
> 
> ␉
> {"do":"enter","key":"kb"}
~ {"do":"look"}
= H- H- bye
< {"board":"","from":null,"ok":"here","ports":2}
< {"board":"","from":null,"ok":"here","ports":2}
? key ka, enter, leave
! InputEnded

Memory may run out at the enter.
> {"do":"enter","key":"ka"}
> {"do":"look"}
= none
? key ka
! Memory

It may run out at a command.
> {"do":"enter","key":"ka"}
> {"do":"look"}
= H- none
< {"board":"","from":null,"ok":"here","ports":2}
? key ka, look, leave
! Memory

It may run out at the news.
> {"do":"enter","key":"ka"}
> {"do":"look"}
= gone none
< {"ok":"gone"}
? key ka, news, leave
! Memory"#;

/// A port that returns scripted answers in order and records the calls.
#[derive(Drop)]
struct Script<'a> {
    alloc: Global,
    answers: Vec<&'a str>,
    given: usize,
    asked: String,
}

impl<'a> Script<'a> {
    fn note(&mut self, asked: &str) -> Result<(), Memory> {
        if !self.asked.is_empty() {
            self.asked.push_str(", ")?;
        }
        self.asked.push_str(asked)
    }

    fn answer(&mut self) -> Result<&'a str, Memory> {
        let answer = self.answers.get(self.given).copied();
        self.given = self.given.saturating_add(1);
        answer.ok_or(Memory)
    }
}

impl Port for Script<'_> {
    ghost calls = { λ _ _ _ _. Unit {0} };

    fn enter(&mut self, key: &str) -> Result<Entered, Memory> {
        self.note("key")?;
        self.asked.push(' ')?;
        self.asked.push_str(key)?;
        let alloc = self.alloc;
        match self.answer()? {
            "key" => Ok(Entered::Key),
            "taken" => Ok(Entered::Taken),
            word => Ok(Entered::In(reply_of(alloc, word)?)),
        }
    }

    fn tell(&mut self, command: Command) -> Result<Reply, Memory> {
        self.note(word_of(&command))?;
        let alloc = self.alloc;
        reply_of(alloc, self.answer()?)
    }

    fn show(&self, _line: &Raw<'_>) {}

    fn news(&mut self) -> Result<Reply, Memory> {
        self.note("news")?;
        let alloc = self.alloc;
        reply_of(alloc, self.answer()?)
    }
}

// Parses a word of a script: H- is Here without an arrival label, H0 is Here with label 0. Any other word is a memory
// fault.
fn reply_of(alloc: Global, word: &str) -> Result<Reply, Memory> {
    let came = match word {
        "gone" => return Ok(Reply::Gone),
        "noted" => return Ok(Reply::Noted),
        "bye" => return Ok(Reply::Bye),
        "over" => return Ok(Reply::Over),
        "H-" => None,
        "H0" => Some(0),
        _ => return Err(Memory),
    };
    Ok(Reply::Here {
        ports: 2,
        came,
        board: Text::empty(),
    })
}

/// A session's input and its expected output and ending.
#[derive(Drop)]
struct Row<'a> {
    input: String,
    fails: bool,
    turns: u32,
    room: usize,
    answers: &'a str,
    written: String,
    asked: &'a str,
    ended: &'a str,
}

impl<'a> Row<'a> {
    fn new(alloc: Global) -> Row<'a> {
        Row {
            input: String::new(alloc),
            fails: false,
            turns: 1000,
            room: 1000,
            answers: "",
            written: String::new(alloc),
            asked: "",
            ended: "",
        }
    }

    fn take(&mut self, line: &'a str) -> Result<(), Fail> {
        let (mark, rest) = line.split_once(' ').unwrap_or((line, ""));
        match mark {
            ">" => {
                push_bytes(&mut self.input, rest)?;
                self.input.push('\n')?;
            }
            "~" => push_bytes(&mut self.input, rest)?,
            "<" => {
                self.written.push_str(rest)?;
                self.written.push('\n')?;
            }
            "~<" => self.written.push_str(rest)?,
            "=" => self.answers = rest,
            "?" => self.asked = rest,
            "!" => self.ended = rest,
            "#" => self.limit(rest)?,
            _ => {}
        }
        Ok(())
    }

    fn limit(&mut self, given: &str) -> Result<(), Fail> {
        match given.split_once(' ') {
            Some(("turns", count)) => self.turns = count.parse().map_err(|_| "turns")?,
            Some(("room", count)) => self.room = count.parse().map_err(|_| "room")?,
            _ => self.fails = true,
        }
        Ok(())
    }
}

/// A client's bytes, as a row writes them.
fn push_bytes(input: &mut String, text: &str) -> Result<(), Fail> {
    for mark in text.chars() {
        input.push(match mark {
            '␠' => ' ',
            '␉' => '\t',
            '␍' => '\r',
            other => other,
        })?;
    }
    Ok(())
}

// Plays the row in one piece, and byte by byte where its turns allow.
fn plays(rt: &impl Abort, alloc: Global, text: &str) -> Result<(), Fail> {
    let mut row = Row::new(alloc);
    for line in text.lines() {
        row.take(line)?;
    }
    let pieces: &[usize] = if row.turns < 1000 {
        &[100_000]
    } else {
        &[1, 100_000]
    };
    for piece in pieces {
        let mut reader = Pieces::new(row.input.as_bytes(), *piece, row.fails);
        let mut writer = Narrow::new(alloc, row.room, 100_000, true);
        let mut port = Script {
            alloc,
            answers: row.answers.split(' ').collect(alloc)?,
            given: 0,
            asked: String::new(alloc),
        };
        let ended = serve(alloc, &mut reader, &mut writer, &mut port, row.turns);
        let ended = format!(in alloc; "{ended:?}")?;
        assert_eq!(rt; port.asked.as_str(), row.asked, "{text}");
        assert_eq!(rt; writer.taken.as_slice(), row.written.as_bytes(), "{text}");
        assert_eq!(rt; ended.as_str(), row.ended, "{text}");
    }
    Ok(())
}

#[test]
fn sessions_end_as_they_should(rt: HostRuntime) -> Result<(), Fail> {
    for row in SESSIONS.split("\n\n") {
        plays(&rt, rt.alloc(), row)?;
    }
    Ok(())
}

// Wherever the reader or the writer fails, who had entered is told to leave, once.
#[test]
fn one_leave_is_told_wherever_a_stream_fails(rt: HostRuntime) -> Result<(), Fail> {
    let alloc = rt.alloc();
    let input = b"{\"do\":\"enter\",\"key\":\"ka\"}\n{\"do\":\"look\"}\n";
    for cut in 0..=input.len() {
        for room in 0..=2 * SIGHT.len() {
            let mut reader = Pieces::new(&input[..cut], 1, true);
            let mut writer = Narrow::new(alloc, room, 1, true);
            let mut port = Script {
                alloc,
                answers: vec![in alloc; "H-", "H-", "bye"]?,
                given: 0,
                asked: String::new(alloc),
            };
            serve(alloc, &mut reader, &mut writer, &mut port, 1000);
            let asked = port.asked.as_str();
            let leaves = asked.split(", ").filter(|word| *word == "leave").count();
            let entered = asked.starts_with("key ka");
            assert_eq!(rt; leaves, usize::from(entered), "{asked} by {cut} and {room}");
            assert_eq!(rt; entered, cut > 25, "{asked} by {cut} and {room}");
        }
    }
    Ok(())
}

#[test]
fn an_overlong_line_is_bad(rt: HostRuntime) -> Result<(), Fail> {
    let alloc = rt.alloc();
    let mut line = String::from_str(alloc, "> {\"do\":\"look\"}")?;
    for _ in 0..MAX_LINE - 12 {
        line.push('␠')?;
    }
    let line = line.as_str();
    let later = format!(in alloc;
        "# turns 999\n> {ENTER}\n{line}\n= H- H- bye\n{SIGHT}\n{SIGHT}\n? key ka, bad, leave\n! InputEnded"
    )?;
    plays(&rt, alloc, later.as_str())?;
    let first = format!(in alloc; "# turns 999\n{line}\n< {DENIED}\n! Denied")?;
    plays(&rt, alloc, first.as_str())
}

const ENTER: &str = "{\"do\":\"enter\",\"key\":\"ka\"}";

const SIGHT: &str = "< {\"board\":\"\",\"from\":null,\"ok\":\"here\",\"ports\":2}";

const DENIED: &str = "{\"no\":\"enter\"}";
