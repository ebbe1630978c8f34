//! The std of Rattle for crates whose contracts are left out (tools/port/stripped.py), over the std of Rust: what both
//! have alike is passed on, and the rest is here as far as the crates of the program use it. No call fails for memory.

pub mod borrow;
pub mod collections;
pub mod convert;
pub mod host;
#[cfg(unix)]
pub mod machine;
pub mod prelude;
pub mod race;
pub mod simd;
#[cfg(unix)]
#[path = "sockets.rs"]
pub mod net;
pub mod sync;
pub mod time;

pub use host::{fs, thread};
/// The trait of errors, of which only the name is used.
pub use std::error::Error;
pub use std::{array, cell, char, cmp, default, error, hash, iter, mem, ops, option, result, slice, str};
pub use std::{matches, unreachable, write, writeln};

pub mod string {
    pub use crate::collections::String;
}

pub mod process {
    pub use std::process::ExitCode;
}

pub mod rt {
    pub use crate::fs::Files;

    /// The words of the command line.
    pub trait Env {
        fn arg(&self, number: usize, room: &mut [u8]) -> Result<usize, crate::env::FillError>;
    }
}

pub mod env {
    use crate::collections::String;

    pub enum FillError {
        NotPresent,
        TooLong,
    }
    pub fn args<R: crate::rt::Env>(_: &R) -> crate::io::Result<impl Iterator<Item = String>> {
        Ok(std::env::args().map(|word| String::from_std(crate::alloc::Global, word)))
    }
}

pub mod os {
    pub mod unix {
        pub mod fs {
            pub trait MetadataExt {}
            pub trait OpenOptionsExt {}
        }
    }
    pub mod fd {
        pub trait AsRawFd {}
    }
}

pub mod alloc {
    #[derive(Clone, Copy, Debug, Default, PartialEq, Eq, Hash, PartialOrd, Ord)]
    pub struct Global;

    /// A bound that every allocator meets.
    pub trait Allocator: Copy {}
    impl<A: Copy> Allocator for A {}

    #[derive(Clone, Copy, Debug, PartialEq, Eq)]
    pub struct AllocError;
    impl std::fmt::Display for AllocError {
        fn fmt(&self, f: &mut std::fmt::Formatter<'_>) -> std::fmt::Result {
            f.write_str("memory allocation failed")
        }
    }
    impl std::error::Error for AllocError {}

    #[derive(Debug)]
    pub struct AllocFailed<T>(pub T);

    impl<T> From<AllocFailed<T>> for AllocError {
        fn from(_: AllocFailed<T>) -> AllocError {
            AllocError
        }
    }
}

pub mod marker {
    pub use std::marker::*;
    pub trait Model {}
}

pub mod num {
    pub use std::num::*;

    pub fn nearest_u64_to_f64(number: u64) -> f64 {
        number as f64
    }
    pub fn nearest_i64_to_f64(number: i64) -> f64 {
        number as f64
    }
}

pub mod boxed {
    use crate::alloc::{AllocError, Global};
    use std::ops::{Deref, DerefMut};

    #[derive(Clone, Debug, PartialEq, Eq, Hash, PartialOrd, Ord)]
    pub struct Box<T>(std::boxed::Box<T>);
    impl<T> Box<T> {
        pub fn new(_: Global, item: T) -> Result<Box<T>, AllocError> {
            Ok(Box(std::boxed::Box::new(item)))
        }
        pub fn into_inner(boxed: Box<T>) -> T {
            *boxed.0
        }
    }
    impl<T> Deref for Box<T> {
        type Target = T;
        fn deref(&self) -> &T {
            &self.0
        }
    }
    impl<T> DerefMut for Box<T> {
        fn deref_mut(&mut self) -> &mut T {
            &mut self.0
        }
    }
}

pub mod words {
    pub fn read_u64_le(bytes: &[u8], at: usize) -> u64 {
        u64::from_le_bytes(bytes[at..at + 8].try_into().unwrap())
    }
}

pub mod fmt {
    pub use std::fmt::*;

    /// The first bytes of a text, up to the end of a character.
    #[derive(Clone, Copy, Debug, PartialEq, Eq, Hash)]
    pub struct InlineText<const N: usize> {
        bytes: [u8; N],
        length: usize,
    }
    impl<const N: usize> InlineText<N> {
        pub fn new() -> Self {
            InlineText {
                bytes: [0; N],
                length: 0,
            }
        }
        pub fn of<T: Display>(value: T) -> Self {
            let text = value.to_string();
            let mut length = text.len().min(N);
            while !text.is_char_boundary(length) {
                length -= 1;
            }
            let mut made = Self::new();
            made.bytes[..length].copy_from_slice(&text.as_bytes()[..length]);
            made.length = length;
            made
        }
        pub fn as_str(&self) -> &str {
            std::str::from_utf8(&self.bytes[..self.length]).unwrap()
        }
    }
}

pub mod io {
    pub use std::io::{sink, Error, ErrorKind, Read, Result, Write};
    use crate::alloc::{AllocError, Global};

    /// Whoever has `writeln!` write to a generic writer.
    pub trait WriteFmt {}

    /// Whoever has standard streams.
    pub trait Input {
        #[cfg(unix)]
        fn reader(&self) -> crate::machine::Stdin {
            crate::machine::Stdin
        }
    }
    pub trait Print {}
    pub trait Eprint {}
    impl<R: Eprint> Eprint for &R {}

    pub trait IsTerminal {
        fn is_terminal(&self) -> bool;
    }

    pub fn eprint<R: Eprint>(_: &R, text: std::fmt::Arguments<'_>) -> Result<()> {
        std::io::stderr().write_all(text.to_string().as_bytes())
    }

    #[cfg(unix)]
    pub fn writer<R: Print>(_: &R) -> crate::machine::Stdout {
        crate::machine::Stdout
    }

    pub struct BufReader<R>(std::io::BufReader<R>);
    impl<R: Read> BufReader<R> {
        pub fn with_capacity(_: Global, room: usize, reader: R) -> std::result::Result<BufReader<R>, AllocError> {
            Ok(BufReader(std::io::BufReader::with_capacity(room, reader)))
        }
        pub fn buffer(&self) -> &[u8] {
            self.0.buffer()
        }
    }
    impl<R: Read> Read for BufReader<R> {
        fn read(&mut self, buffer: &mut [u8]) -> Result<usize> {
            self.0.read(buffer)
        }
    }

    pub struct BufWriter<W: Write>(std::io::BufWriter<W>);
    impl<W: Write> BufWriter<W> {
        pub fn with_capacity(_: Global, room: usize, writer: W) -> std::result::Result<BufWriter<W>, AllocError> {
            Ok(BufWriter(std::io::BufWriter::with_capacity(room, writer)))
        }
    }
    impl<W: Write> Write for BufWriter<W> {
        fn write(&mut self, bytes: &[u8]) -> Result<usize> {
            self.0.write(bytes)
        }
        fn flush(&mut self) -> Result<()> {
            self.0.flush()
        }
    }

    impl From<AllocError> for Error {
        fn from(_: AllocError) -> Error {
            Error::from(ErrorKind::OutOfMemory)
        }
    }
}

#[macro_export]
macro_rules! vec {
    (in $alloc:expr; $item:expr; $length:expr) => {{
        Ok::<_, $crate::alloc::AllocError>($crate::collections::Vec::from_std($alloc, std::vec![$item; $length]))
    }};
    (in $alloc:expr; $($item:expr),* $(,)?) => {{
        Ok::<_, $crate::alloc::AllocError>($crate::collections::Vec::from_std($alloc, std::vec![$($item),*]))
    }};
}

#[macro_export]
macro_rules! format {
    (in $alloc:expr; $($item:tt)*) => {{
        Ok::<_, $crate::alloc::AllocError>($crate::collections::String::from_std($alloc, std::format!($($item)*)))
    }};
}

#[macro_export]
macro_rules! eprint {
    ($rt:expr; $($item:tt)*) => {
        $crate::io::eprint(&$rt, std::format_args!($($item)*))
    };
}

#[macro_export]
macro_rules! eprintln {
    ($rt:expr; $($item:tt)*) => {
        $crate::io::eprint(&$rt, std::format_args!("{}\n", std::format_args!($($item)*)))
    };
}
