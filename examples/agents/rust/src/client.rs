//! A client of the arena. Each call sends a line and waits for its answer.
//!
//!     let (mut agent, here) = join("127.0.0.1:4000", "KEY")?;   // here is Here { ports: 2, came: None, board: "" }
//!     let swap = agent.write("", "I was here")?;                // Swap { written: true, board: "I was here" }
//!     let here = agent.depart(0)?;                              // waits until the agent has arrived
//!     agent.accuse(1)?;                                         // port 1 leads to a black hole; the agent ends

use serde_json::{json, Value};
use std::fmt;
use std::io::{BufRead, BufReader, Write};
use std::net::TcpStream;
use std::thread::sleep;
use std::time::Duration;

/// Why a call is not done.
#[derive(Debug)]
pub enum Stop {
    /// The match has ended. The agent can do nothing more.
    Over,
    /// The server refused a command, and said why, or is not there any more.
    Refused(String),
}

impl fmt::Display for Stop {
    fn fmt(&self, out: &mut fmt::Formatter<'_>) -> fmt::Result {
        match self {
            Stop::Over => write!(out, "the match is over"),
            Stop::Refused(why) => write!(out, "refused: {why}"),
        }
    }
}

impl std::error::Error for Stop {}

impl From<std::io::Error> for Stop {
    fn from(fault: std::io::Error) -> Stop {
        Stop::Refused(fault.to_string())
    }
}

/// A node as an agent sees it: its number of ports, the port by which the agent came, and the whiteboard's text.
#[derive(Debug, PartialEq)]
pub struct Here {
    pub ports: u64,
    pub came: Option<u64>,
    pub board: String,
}

/// What a write came to: whether the text was put, and what stands on the whiteboard now.
#[derive(Debug, PartialEq)]
pub struct Swap {
    pub written: bool,
    pub board: String,
}

/// One agent of a match.
pub struct Agent {
    reader: BufReader<TcpStream>,
    writer: TcpStream,
}

const TRIES: u32 = 20;
const FIRST_PAUSE: Duration = Duration::from_millis(50);
const LONGEST_PAUSE: Duration = Duration::from_secs(2);

/// The server has no room yet, or the first line came late: the key is not used up.
fn may_try_again(stop: &Stop) -> bool {
    matches!(stop, Stop::Refused(why) if ["full", "late", "memory"].contains(&why.as_str()))
}

/// Connects and enters. Tries again if the server has no room yet.
pub fn join(address: &str, key: &str) -> Result<(Agent, Here), Stop> {
    let mut pause = FIRST_PAUSE;
    for left in (0..=TRIES).rev() {
        let mut agent = Agent::connect(address)?;
        match agent.enter(key) {
            Ok(here) => return Ok((agent, here)),
            Err(stop) if left == 0 || !may_try_again(&stop) => return Err(stop),
            Err(_) => sleep(pause),
        }
        pause = LONGEST_PAUSE.min(2 * pause);
    }
    unreachable!("the last try returns")
}

impl Agent {
    pub fn connect(address: &str) -> Result<Agent, Stop> {
        let writer = TcpStream::connect(address)?;
        writer.set_nodelay(true)?;
        let reader = BufReader::new(writer.try_clone()?);
        Ok(Agent { reader, writer })
    }

    /// Enters the match of this key at its home base.
    pub fn enter(&mut self, key: &str) -> Result<Here, Stop> {
        self.ask(json!({"do": "enter", "key": key})).map(here)
    }

    /// Looks at the node where the agent is.
    pub fn look(&mut self) -> Result<Here, Stop> {
        self.ask(json!({"do": "look"})).map(here)
    }

    /// Puts a text on the whiteboard if what stands there is what is expected, else changes nothing.
    pub fn write(&mut self, expect: &str, put: &str) -> Result<Swap, Stop> {
        let answer = self.ask(json!({"do": "write", "expect": expect, "put": put}))?;
        let written = answer["ok"] == "written";
        Ok(Swap { written, board: if written { put.to_string() } else { text(&answer["board"]) } })
    }

    /// Leaves by this port, and waits until the agent arrives. If it is destroyed, that is until the match ends.
    pub fn depart(&mut self, port: u64) -> Result<Here, Stop> {
        self.ask(json!({"do": "depart", "port": port}))?;
        self.answer().map(here)
    }

    /// Says that the link at this port leads to a black hole, or is dark. The agent ends.
    pub fn accuse(&mut self, port: u64) -> Result<(), Stop> {
        self.ask(json!({"do": "accuse", "port": port})).map(drop)
    }

    /// Leaves the match.
    pub fn leave(&mut self) -> Result<(), Stop> {
        self.ask(json!({"do": "leave"})).map(drop)
    }

    fn ask(&mut self, command: Value) -> Result<Value, Stop> {
        self.writer.write_all(format!("{command}\n").as_bytes())?;
        self.answer()
    }

    fn answer(&mut self) -> Result<Value, Stop> {
        let mut line = String::new();
        if self.reader.read_line(&mut line)? == 0 {
            return Err(Stop::Refused("the server has closed the connection".to_string()));
        }
        let answer: Value = serde_json::from_str(&line).map_err(|fault| Stop::Refused(fault.to_string()))?;
        match (answer["ok"].as_str(), answer["no"].as_str()) {
            (_, Some(why)) => Err(Stop::Refused(why.to_string())),
            (Some("over"), None) => Err(Stop::Over),
            _ => Ok(answer),
        }
    }
}

fn text(value: &Value) -> String {
    value.as_str().unwrap_or("").to_string()
}

fn here(answer: Value) -> Here {
    Here { ports: answer["ports"].as_u64().unwrap_or(0), came: answer["from"].as_u64(), board: text(&answer["board"]) }
}
