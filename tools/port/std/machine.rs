//! The machine on which a program runs: its words, streams, files, threads, clock and sockets.
use crate::alloc::Global;
use crate::fs::{File, Files, Kind, Metadata, OpenOptions};
use crate::io;
use crate::net::{Net, TcpListener, TcpStream};
use crate::rt::Env;
use crate::thread::Threads;
use crate::time::{Clock, Duration};
use std::io::{Read, Write};
use std::mem::ManuallyDrop;
use std::os::unix::ffi::OsStrExt;
use std::os::unix::fs::{MetadataExt, OpenOptionsExt};
use std::os::unix::io::FromRawFd;

#[derive(Clone, Copy)]
pub struct HostRuntime;

impl HostRuntime {
    pub fn alloc(&self) -> Global {
        Global
    }
    pub fn stdin(&self) -> Stdin {
        Stdin
    }
    pub fn stdout(&self) -> Stdout {
        Stdout
    }
    pub fn stderr(&self) -> std::io::Stderr {
        std::io::stderr()
    }
}

/// Standard input and output, with no buffers of their own.
pub struct Stdin;
pub struct Stdout;

impl io::Input for HostRuntime {}
impl io::Print for HostRuntime {}
impl io::Eprint for HostRuntime {}

fn stream(descriptor: i32) -> ManuallyDrop<std::fs::File> {
    ManuallyDrop::new(unsafe { std::fs::File::from_raw_fd(descriptor) })
}

impl Read for Stdin {
    fn read(&mut self, buffer: &mut [u8]) -> io::Result<usize> {
        stream(0).read(buffer)
    }
}
impl Write for Stdout {
    fn write(&mut self, bytes: &[u8]) -> io::Result<usize> {
        stream(1).write(bytes)
    }
    fn flush(&mut self) -> io::Result<()> {
        Ok(())
    }
}
impl io::IsTerminal for Stdout {
    fn is_terminal(&self) -> bool {
        extern "C" {
            fn isatty(descriptor: i32) -> i32;
        }
        unsafe { isatty(1) == 1 }
    }
}

impl Env for HostRuntime {
    fn arg(&self, number: usize, room: &mut [u8]) -> Result<usize, crate::env::FillError> {
        let word = std::env::args_os().nth(number).ok_or(crate::env::FillError::NotPresent)?;
        let bytes = word.as_bytes();
        let part = room.get_mut(..bytes.len()).ok_or(crate::env::FillError::TooLong)?;
        part.copy_from_slice(bytes);
        Ok(bytes.len())
    }
}

impl Files for HostRuntime {
    type File = File;

    fn open_by(&self, name: &str, options: &OpenOptions) -> io::Result<File> {
        let mut system_options = std::fs::OpenOptions::new();
        system_options
            .read(options.read)
            .write(options.write)
            .append(options.append)
            .create_new(options.create_new)
            .mode(options.mode);
        Ok(File(system_options.open(name)?))
    }
    fn metadata_of(&self, name: &str, follows: bool) -> io::Result<Metadata> {
        let metadata = if follows {
            std::fs::metadata(name)?
        } else {
            std::fs::symlink_metadata(name)?
        };
        Ok(metadata_from(&metadata))
    }
    fn rename_file(&self, from: &str, to: &str) -> io::Result<()> {
        std::fs::rename(from, to)
    }
    fn remove(&self, name: &str) -> io::Result<()> {
        std::fs::remove_file(name)
    }
}

pub(crate) fn metadata_from(metadata: &std::fs::Metadata) -> Metadata {
    let kind = match (metadata.is_file(), metadata.is_dir()) {
        (true, _) => Kind::File,
        (_, true) => Kind::Folder,
        _ => Kind::Other,
    };
    Metadata {
        kind,
        inode: metadata.ino(),
        device: metadata.dev(),
    }
}

impl Threads for HostRuntime {
    fn processors(&self) -> usize {
        std::thread::available_parallelism().map_or(1, |count| count.get())
    }
    fn map<T: Send, F: Fn(usize) -> T + Sync>(&self, count: usize, work: &F) -> Vec<T> {
        std::thread::scope(|scope| {
            let threads: Vec<_> = (0..count).map(|index| scope.spawn(move || work(index))).collect();
            threads.into_iter().map(|thread| thread.join().unwrap()).collect()
        })
    }
}

impl Clock for HostRuntime {
    fn monotonic(&self) -> io::Result<Duration> {
        extern "C" {
            fn clock_gettime(clock: i32, time: *mut [i64; 2]) -> i32;
        }
        const CLOCK_MONOTONIC: i32 = 1;
        let mut time = [0; 2];
        if unsafe { clock_gettime(CLOCK_MONOTONIC, &mut time) } != 0 {
            return Err(io::Error::last_os_error());
        }
        Ok(Duration::new(time[0] as u64, time[1] as u32))
    }
}

impl Net for HostRuntime {
    type Listener = TcpListener;
    type Stream = TcpStream;
}
