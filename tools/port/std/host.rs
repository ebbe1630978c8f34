//! Files and threads of a host, which the program is given: tools/port/hosts has the hosts.

/// Files.
pub mod fs {
    use crate::io;

    pub trait OpenFile {
        fn sync_all(&self) -> io::Result<()>;
    }

    #[derive(Clone, Copy, Debug, PartialEq, Eq)]
    pub enum Kind {
        File,
        Folder,
        Other,
    }

    #[derive(Clone, Copy, Debug)]
    pub struct Metadata {
        pub kind: Kind,
        pub inode: u64,
        pub device: u64,
    }
    impl Metadata {
        pub fn ino(&self) -> u64 {
            self.inode
        }
        pub fn dev(&self) -> u64 {
            self.device
        }
        pub fn is_dir(&self) -> bool {
            self.kind == Kind::Folder
        }
        pub fn is_file(&self) -> bool {
            self.kind == Kind::File
        }
    }

    pub trait Files {
        type File: io::Read + io::Write + OpenFile;
        fn open_by(&self, name: &str, options: &OpenOptions) -> io::Result<Self::File>;
        fn metadata_of(&self, name: &str, follows: bool) -> io::Result<Metadata>;
        fn metadata(&self, name: &str) -> io::Result<Metadata> {
            self.metadata_of(name, true)
        }
        fn rename_file(&self, from: &str, to: &str) -> io::Result<()>;
        fn remove(&self, name: &str) -> io::Result<()>;
    }

    #[derive(Clone, Copy, Debug, Default)]
    pub struct OpenOptions {
        pub read: bool,
        pub write: bool,
        pub append: bool,
        pub create_new: bool,
        pub mode: u32,
    }
    impl OpenOptions {
        pub fn new() -> OpenOptions {
            OpenOptions {
                mode: 0o666,
                ..OpenOptions::default()
            }
        }
        pub fn read(&mut self, is: bool) -> &mut OpenOptions {
            self.read = is;
            self
        }
        pub fn write(&mut self, is: bool) -> &mut OpenOptions {
            self.write = is;
            self
        }
        pub fn append(&mut self, is: bool) -> &mut OpenOptions {
            self.append = is;
            self
        }
        pub fn create_new(&mut self, is: bool) -> &mut OpenOptions {
            self.create_new = is;
            self
        }
        pub fn mode(&mut self, mode: u32) -> &mut OpenOptions {
            self.mode = mode;
            self
        }
        pub fn open<F: Files>(&self, files: &F, name: &str) -> io::Result<F::File> {
            files.open_by(name, self)
        }
    }

    /// A file of the system.
    #[cfg(unix)]
    pub struct File(pub(crate) std::fs::File);

    #[cfg(unix)]
    pub enum TryLockError {
        WouldBlock,
        Error(io::Error),
    }

    #[cfg(unix)]
    impl File {
        pub fn metadata(&self) -> io::Result<Metadata> {
            Ok(crate::machine::metadata_from(&self.0.metadata()?))
        }
        pub fn set_len(&self, length: u64) -> io::Result<()> {
            self.0.set_len(length)
        }
        pub fn sync_all(&self) -> io::Result<()> {
            self.0.sync_all()
        }
        pub fn sync_data(&self) -> io::Result<()> {
            self.0.sync_data()
        }
        pub fn try_lock(&self) -> Result<(), TryLockError> {
            use std::os::unix::io::AsRawFd;
            const LOCK_EX: i32 = 2;
            const LOCK_NB: i32 = 4;
            extern "C" {
                fn flock(descriptor: i32, operation: i32) -> i32;
            }
            if unsafe { flock(self.0.as_raw_fd(), LOCK_EX | LOCK_NB) } == 0 {
                return Ok(());
            }
            let error = io::Error::last_os_error();
            match error.kind() {
                io::ErrorKind::WouldBlock => Err(TryLockError::WouldBlock),
                _ => Err(TryLockError::Error(error)),
            }
        }
    }
    #[cfg(unix)]
    impl io::Read for File {
        fn read(&mut self, buffer: &mut [u8]) -> io::Result<usize> {
            self.0.read(buffer)
        }
    }
    #[cfg(unix)]
    impl io::Write for File {
        fn write(&mut self, bytes: &[u8]) -> io::Result<usize> {
            self.0.write(bytes)
        }
        fn flush(&mut self) -> io::Result<()> {
            Ok(())
        }
    }
    #[cfg(unix)]
    impl OpenFile for File {
        fn sync_all(&self) -> io::Result<()> {
            self.0.sync_all()
        }
    }

    pub fn open<F: Files>(files: &F, name: &str) -> io::Result<F::File> {
        OpenOptions::new().read(true).open(files, name)
    }
    pub fn metadata<F: Files>(files: &F, name: &str) -> io::Result<Metadata> {
        files.metadata_of(name, true)
    }
    pub fn symlink_metadata<F: Files>(files: &F, name: &str) -> io::Result<Metadata> {
        files.metadata_of(name, false)
    }
    pub fn rename<F: Files>(files: &F, from: &str, to: &str) -> io::Result<()> {
        files.rename_file(from, to)
    }
    pub fn remove_file<F: Files>(files: &F, name: &str) -> io::Result<()> {
        files.remove(name)
    }
}

/// Threads.
pub mod thread {
    use crate::alloc::{AllocError, Global};
    use crate::collections::Vec;
    use crate::io;
    use crate::time::{Clock, Duration};
    use std::num::NonZeroUsize;

    pub use std::thread::yield_now;

    /// The stack of a thread, in bytes: the system gives it memory as it is used.
    const STACK: usize = 512 * 1024;

    pub fn sleep<R: Clock>(_: &R, time: Duration) {
        std::thread::sleep(time);
    }
    pub fn spawn<R: Threads, F: FnOnce() -> T + Send + 'static, T: Send + 'static>(
        _: &R,
        work: F,
    ) -> io::Result<std::thread::JoinHandle<T>> {
        std::thread::Builder::new().stack_size(STACK).spawn(work)
    }

    /// Threads that end before what they borrow.
    #[derive(Clone, Copy)]
    pub struct Scope<'scope, 'env: 'scope>(&'scope std::thread::Scope<'scope, 'env>);
    impl<'scope, 'env> Scope<'scope, 'env> {
        pub fn spawn<F: FnOnce() -> T + Send + 'scope, T: Send + 'scope>(
            &self,
            work: F,
        ) -> io::Result<std::thread::ScopedJoinHandle<'scope, T>> {
            std::thread::Builder::new().stack_size(STACK).spawn_scoped(self.0, work)
        }
    }
    pub fn scope_env() {}
    pub fn scope<'env, R: Threads, T>(
        _: (),
        _: &R,
        work: impl for<'scope> FnOnce(Scope<'scope, 'env>) -> T,
    ) -> T {
        std::thread::scope(|scope| work(Scope(scope)))
    }

    pub trait Threads {
        fn processors(&self) -> usize;
        fn map<T: Send, F: Fn(usize) -> T + Sync>(&self, count: usize, made: &F) -> std::vec::Vec<T>;
    }
    pub fn available_parallelism<R: Threads>(rt: &R) -> io::Result<NonZeroUsize> {
        Ok(NonZeroUsize::new(rt.processors()).unwrap())
    }
    pub fn map_indices<R: Threads, T: Send, F: Fn(usize) -> T + Sync>(
        rt: &R,
        alloc: Global,
        count: usize,
        made: &F,
    ) -> Result<Vec<T>, AllocError> {
        Ok(Vec::from_std(alloc, rt.map(count, made)))
    }
}
