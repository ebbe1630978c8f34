//! Streams that may fail.

use std::alloc::Global;
use std::io;
use std::io::{Read, Write};

/// A reader that gives its bytes at most `piece` at a time, counts its reads, and then ends or fails.
#[derive(Drop)]
pub struct Pieces<'a> {
    pub left: &'a [u8],
    pub piece: usize,
    pub fails: bool,
    pub reads: u64,
}

impl<'a> Pieces<'a> {
    pub fn new(left: &'a [u8], piece: usize, fails: bool) -> Pieces<'a> {
        Pieces {
            left,
            piece,
            fails,
            reads: 0,
        }
    }
}

impl Read for Pieces<'_> {
    fn read(&mut self, buf: &mut [u8]) -> io::Result<usize> {
        self.reads = self.reads.saturating_add(1);
        if self.left.is_empty() && self.fails {
            return Err(io::Error::other("the line went dead"));
        }
        let count = self.left.len().min(self.piece).min(buf.len());
        buf[..count].copy_from_slice(&self.left[..count]);
        self.left = &self.left[count..];
        Ok(count)
    }
}

/// A writer that takes at most `piece` bytes at a time while it has room, counts its writes, and then fails or takes
/// none.
#[derive(Drop)]
pub struct Narrow {
    pub taken: Vec<u8>,
    pub room: usize,
    pub piece: usize,
    pub fails: bool,
    pub writes: u64,
}

impl Narrow {
    pub fn new(alloc: Global, room: usize, piece: usize, fails: bool) -> Narrow {
        Narrow {
            taken: Vec::new(alloc),
            room,
            piece,
            fails,
            writes: 0,
        }
    }
}

impl Write for Narrow {
    fn write(&mut self, buf: &[u8]) -> io::Result<usize> {
        self.writes = self.writes.saturating_add(1);
        if self.room == 0 && self.fails {
            return Err(io::Error::other("the line went dead"));
        }
        let count = buf.len().min(self.piece).min(self.room);
        self.taken.extend_from_slice(&buf[..count])?;
        self.room -= count;
        Ok(count)
    }

    fn flush(&mut self) -> io::Result<()> {
        if self.fails && self.room == 0 {
            return Err(io::Error::other("the line went dead"));
        }
        Ok(())
    }
}
