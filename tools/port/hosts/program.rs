//! A program on a machine, compiled by rustc without a proof.
use std::process::ExitCode;

/// What every start says on standard error.
const SAID: &str = env!("ARENA_SAID");

fn main() -> ExitCode {
    eprintln!("{SAID}");
    program::main(rattle::machine::HostRuntime)
}
