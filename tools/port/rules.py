"""What else changes in the files of a few crates and libraries when their contracts are
left out, each change with its reason.

A pattern that no longer matches stops the build, so that no rule outlives its reason.
"""
from typing import Dict, NamedTuple, Tuple


class Rule(NamedTuple):
    """A change of one file, or of every file of a crate where `file` is `*`."""

    file: str
    pattern: str
    instead: str
    reason: str


POINTER = "a number that a machine of 32 bits cannot index with is past every end, as it is on 64 bits"
TYPED = "reads into types by the kit's serde, which the program does not call"
TREE = "the tree of values, for which serde_json has a few lines here"
SOCKETS = "a page has no sockets, no command line, no locks of files and no clock"
CALLED = "the root file is tools/port/hosts/program.rs, which calls it"

# source files that the program does not need, with the reason
LEFT_OUT: Dict[str, Tuple[str, Tuple[str, ...]]] = {
    "toml_datetime": (TYPED, ("serde_impls.rt",)),
    "toml": (
        TYPED,
        (
            "de/typed.rt",
            "de/tokens.rt",
            "ser.rt",
            "ser/builder.rt",
            "ser/dates.rt",
            "ser/document.rt",
            "ser/error.rt",
            "ser/tree.rt",
            "ser/value.rt",
            "macros.rt",
            "value/serde_impls.rt",
            "value/clone.rt",
        ),
    ),
    "json": (
        TREE,
        (
            "keys.rt",
            "value.rt",
            "value/strict.rt",
            "tape.rt",
            "tape/build.rt",
            "tape/element.rt",
            "tape/strict.rt",
            "write/tree.rt",
        ),
    ),
}
RULES: Dict[str, Tuple[Rule, ...]] = {
    "dec2flt": (
        Rule(
            "*", r"\bcrate::(cmp|marker)\b", r"rattle::\1", "it is no part of core here"
        ),
        Rule(
            "*", r"crate::slice::words", "rattle::words", "it is no part of core here"
        ),
    ),
    "fast_float": (
        Rule(
            "*", r"\bcore::dec2flt\b", "dec2flt", "dec2flt is a library of its own here"
        ),
    ),
    "toml_datetime": (
        Rule("lib.rt", r"mod serde_impls;\n", "", TYPED),
        Rule(
            "lib.rt",
            r"(#\[doc\(hidden\)\]\s*)?pub use serde_impls::FIELD;\n",
            "",
            TYPED,
        ),
    ),
    "toml": (
        Rule("lib.rt", r"pub mod (macros|ser);\n", "", TYPED),
        Rule("lib.rt", r"pub use ser::[^;]*;\n", "", TYPED),
        Rule("lib.rt", r"from_slice, from_str, ", "", TYPED),
        Rule("de.rt", r"mod (typed|tokens);\n", "", TYPED),
        Rule("de.rt", r"use serde::DeserializeOwned;\n", "", TYPED),
        Rule(
            "de.rt",
            r"(?s)/// Deserializes a TOML document into.*?(?=/// Parses a TOML document\.)",
            "",
            TYPED,
        ),
        Rule("value.rt", r"mod (serde_impls|clone);\n", "", TYPED),
        Rule("map.rt", r"pub use rattle::collections::btree_map::Entry;\n", "", TYPED),
    ),
    "json": (
        Rule("lib.rt", r"mod (keys|value|tape);\n", "", TREE),
        Rule("lib.rt", r"pub use (value|tape)::[^;]*;\n", "", TREE),
        Rule("lib.rt", r", to_vec\}", "}", TREE),
        Rule("write.rt", r"mod tree;\n", "", TREE),
        Rule("write.rt", r"pub use tree::to_vec;\n", "", TREE),
    ),
    "clap": (
        Rule(
            "*",
            r"#\[derive_where\(Clone, Copy\)\]",
            "#[derive(Clone, Copy)]",
            "Rust derives it with bounds, which these types meet",
        ),
        Rule(
            "error.rt",
            r"(?s)    [^\n]*\n    pub fn print<R: Print.*?\n    }\n",
            "",
            "prints through a runtime that the program does not use for it",
        ),
    ),
    "bhs_wasm": (
        Rule(
            "memories.rt",
            r"\bat as usize\b",
            "usize::try_from(at).unwrap_or(usize::MAX)",
            POINTER,
        ),
    ),
    "bhs_wasm_read": (
        Rule(
            "segments.rt",
            r"\bfirst as usize\b",
            "usize::try_from(first).unwrap_or(usize::MAX)",
            POINTER,
        ),
    ),
    "bhs_wasm_team": (
        Rule(
            "memory_table.rt",
            r"\(number % 0x1_0000_0000\)",
            "(number as u64 % 0x1_0000_0000)",
            POINTER,
        ),
    ),
    "bhs_explore": (
        Rule(
            "intern_table.rt",
            r"\bcells\.get\(at as usize\)",
            "cells.get(usize::try_from(at).unwrap_or(usize::MAX))",
            POINTER,
        ),
    ),
    "bhs_main": (Rule("main.rt", r"\nfn main\(", "\npub fn main(", CALLED),),
    "bhs_player": (Rule("main.rt", r"\nfn main\(", "\npub fn main(", CALLED),),
}
# further rules for the page
WITHOUT_SOCKETS: Dict[str, Tuple[Rule, ...]] = {
    "bhs_cli_run": (
        Rule("lib.rt", r"mod words;\n", "", SOCKETS),
        Rule("lib.rt", r"pub use words::words_of;\n", "", SOCKETS),
        Rule(
            "orders.rt",
            r"use bhs_cli_serve::\{[^}]*\};\n",
            "use bhs_cli_results::OutputKind;\nuse rattle::fs::Files;\nuse rattle::thread::Threads;\n",
            SOCKETS,
        ),
        Rule("orders.rt", r"use rattle::net::[^;]*;\n", "", SOCKETS),
        Rule(
            "orders.rt",
            r"R: Machine \+ Net<Listener = TcpListener, Stream = TcpStream>",
            "R: Files + Threads + Sync",
            SOCKETS,
        ),
        Rule(
            "orders.rt",
            r"let kind = rt\.output_kind\(\);",
            "let kind = OutputKind::Plain;",
            "its output is never coloured",
        ),
        Rule(
            "orders.rt",
            r"(?s)Order::RecoverContest \{ tournament, prefix \} => recover_named\(.*?errors,\n        \),\n",
            "Order::RecoverContest { .. } | Order::Serve { .. } => {\n"
            '            let _ = writeln!(errors, "{}", NO_SOCKETS);\n'
            "            REFUSED_WORDS\n"
            "        }\n",
            SOCKETS,
        ),
        Rule(
            "orders.rt",
            r"(?s)        Order::Serve \{\n.*?=> serve_named\([^\n]*\n",
            "",
            SOCKETS,
        ),
        Rule(
            "orders.rt",
            r"\Z",
            '\nconst NO_SOCKETS: &str = "arena: a page has no sockets: `serve` and `recover \\\n'
            '    TOURNAMENT PREFIX` need the program on a machine of your own";\n',
            "says which commands it lacks, and what to do",
        ),
    ),
}
