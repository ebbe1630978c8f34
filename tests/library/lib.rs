//! Tests of the libraries, of what no row of text says that the program plays. They are ordinary Rust, without
//! contracts and proofs. `tests/runners/library_tests.py` runs them.
#![tactic(auto)]

mod boards;
mod draws;
mod explorations;
mod limits;
mod lines;
mod locked_matches;
mod locks;
mod matches;
mod memory;
mod model;
mod modules;
mod networks;
mod paces;
mod pasts;
mod played;
mod reading;
mod rehearsals;
mod replays;
mod searchers;
mod sending;
mod servers;
mod sessions;
mod shared_matches;
mod showcases;
mod standings;
mod streams;
mod triangle;
mod verdicts;
mod views;
mod worlds;
