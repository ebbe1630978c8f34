//! What an agent that is a WebAssembly module can call.
//!
//! A command waits until its reply is there. The calls that are no commands answer at once, of the last reply. An agent
//! has nothing else: no clock, no chance, no files. So what it does next is a function of what it was told.
#![allow(dead_code)]

/// What a command is answered.
#[derive(Clone, Copy, PartialEq, Eq)]
pub enum Reply {
    /// The agent slept, and wakes.
    Woke,
    /// It is at a node, and sees it.
    Here,
    /// Its text is on the whiteboard.
    Written,
    /// The whiteboard shows another text than it expected.
    Changed,
    /// Its accusation is noted, and it has ended.
    Noted,
    /// It has left.
    Bye,
    /// The match is over.
    Over,
    /// The server refuses the command.
    Refused,
}

mod host {
    #[link(wasm_import_module = "arena")]
    extern "C" {
        pub fn enter() -> i32;
        pub fn look() -> i32;
        pub fn write(expect: *const u8, expect_length: usize, put: *const u8, put_length: usize) -> i32;
        pub fn depart(port: i32) -> i32;
        pub fn accuse(port: i32) -> i32;
        pub fn leave() -> i32;
        pub fn sleep() -> i32;
        pub fn ports() -> i32;
        pub fn came() -> i32;
        pub fn board(buffer: *mut u8, room: usize) -> usize;
        pub fn argument(number: i32) -> i32;
    }
}

fn reply(number: i32) -> Reply {
    match number {
        0 => Reply::Woke,
        1 => Reply::Here,
        2 => Reply::Written,
        3 => Reply::Changed,
        5 => Reply::Noted,
        6 => Reply::Bye,
        7 => Reply::Over,
        _ => Reply::Refused,
    }
}

/// Begins at the home base: `Here`.
pub fn enter() -> Reply {
    reply(unsafe { host::enter() })
}

/// Sees the node again: `Here`.
pub fn look() -> Reply {
    reply(unsafe { host::look() })
}

/// Puts a text on the whiteboard if it shows the expected one: `Written`; else `Changed`. Texts are UTF-8; with other
/// bytes the agent fails.
pub fn write(expect: &[u8], put: &[u8]) -> Reply {
    reply(unsafe { host::write(expect.as_ptr(), expect.len(), put.as_ptr(), put.len()) })
}

/// Leaves by a port, and waits until the agent arrives: `Here`.
pub fn depart(port: i32) -> Reply {
    reply(unsafe { host::depart(port) })
}

/// Says that the link at a port destroys. The agent ends: `Noted`.
pub fn accuse(port: i32) -> Reply {
    reply(unsafe { host::accuse(port) })
}

/// Ends: `Bye`.
pub fn leave() -> Reply {
    reply(unsafe { host::leave() })
}

/// Sleeps until the whiteboard changes: `Woke`.
pub fn sleep() -> Reply {
    reply(unsafe { host::sleep() })
}

/// How many ports the node has, after `Here`.
pub fn ports() -> i32 {
    unsafe { host::ports() }
}

/// The port by which the agent came, after `Here`; -1 at the home base where it entered.
pub fn came() -> i32 {
    unsafe { host::came() }
}

/// The text of the whiteboard, after `Here` and `Changed`: the part of the buffer that it fills, or nothing if it does
/// not fit.
pub fn board(buffer: &mut [u8]) -> &[u8] {
    let length = unsafe { host::board(buffer.as_mut_ptr(), buffer.len()) };
    buffer.get(..length).unwrap_or(&[])
}

/// The argument of this number with which the agent was started, or 0.
pub fn argument(number: i32) -> i32 {
    unsafe { host::argument(number) }
}

#[panic_handler]
fn panic(_: &core::panic::PanicInfo) -> ! {
    core::arch::wasm32::unreachable()
}
