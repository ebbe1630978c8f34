//! A host with files that are kept in memory, and no thread: a page's.
use rattle::fs::{Files, Kind, Metadata, OpenFile, OpenOptions};
use rattle::io;
use rattle::thread::Threads;
use std::cell::RefCell;
use std::collections::BTreeMap;
use std::io::{Error, ErrorKind, Read, Write};
use std::rc::Rc;

/// Normalises a path: removes its parts `.` and `..`.
fn plain(name: &str) -> String {
    let mut parts: Vec<&str> = Vec::new();
    for part in name.split('/') {
        match part {
            "" | "." => {}
            ".." if !parts.is_empty() => {
                parts.pop();
            }
            _ => parts.push(part),
        }
    }
    let root = if name.starts_with('/') { "/" } else { "" };
    format!("{root}{}", parts.join("/"))
}

/// Files that are kept in memory, by their names; a folder's name ends with `/`.
#[derive(Default)]
pub struct Kept {
    pub files: Rc<RefCell<BTreeMap<String, Vec<u8>>>>,
}

// A page has one thread.
unsafe impl Sync for Kept {}

pub struct KeptFile {
    files: Rc<RefCell<BTreeMap<String, Vec<u8>>>>,
    name: String,
    at: usize,
}

impl Read for KeptFile {
    fn read(&mut self, buffer: &mut [u8]) -> io::Result<usize> {
        let files = self.files.borrow();
        let bytes = files.get(&self.name).map_or(&[][..], |bytes| bytes);
        let count = buffer.len().min(bytes.len() - self.at);
        buffer[..count].copy_from_slice(&bytes[self.at..self.at + count]);
        self.at += count;
        Ok(count)
    }
}
impl Write for KeptFile {
    fn write(&mut self, bytes: &[u8]) -> io::Result<usize> {
        let mut files = self.files.borrow_mut();
        files.entry(self.name.clone()).or_default().extend_from_slice(bytes);
        Ok(bytes.len())
    }
    fn flush(&mut self) -> io::Result<()> {
        Ok(())
    }
}
impl OpenFile for KeptFile {
    fn sync_all(&self) -> io::Result<()> {
        Ok(())
    }
}

impl Kept {
    fn kind_of(&self, name: &str) -> io::Result<Kind> {
        if name.is_empty() {
            return Err(Error::from(ErrorKind::NotFound));
        }
        let files = self.files.borrow();
        let name = plain(name);
        if files.contains_key(&name) {
            return Ok(Kind::File);
        }
        let folder = format!("{name}/");
        let is_folder = name.is_empty() || name == "/" || files.keys().any(|one| one.starts_with(&folder));
        if is_folder {
            Ok(Kind::Folder)
        } else {
            Err(Error::from(ErrorKind::NotFound))
        }
    }
}

impl Files for Kept {
    type File = KeptFile;

    fn open_by(&self, name: &str, options: &OpenOptions) -> io::Result<KeptFile> {
        match self.kind_of(name) {
            Ok(Kind::File) if options.create_new => return Err(Error::from(ErrorKind::AlreadyExists)),
            Ok(Kind::File) => {}
            Ok(_) => return Err(Error::from(ErrorKind::PermissionDenied)),
            Err(_) if options.create_new => {
                if let Some((folder, _)) = plain(name).rsplit_once('/') {
                    self.kind_of(if folder.is_empty() { "/" } else { folder })?;
                }
                self.files.borrow_mut().insert(plain(name), Vec::new());
            }
            Err(error) => return Err(error),
        }
        Ok(KeptFile {
            files: Rc::clone(&self.files),
            name: plain(name),
            at: 0,
        })
    }
    fn metadata_of(&self, name: &str, _: bool) -> io::Result<Metadata> {
        Ok(Metadata {
            kind: self.kind_of(name)?,
            inode: 0,
            device: 0,
        })
    }
    fn rename_file(&self, from: &str, to: &str) -> io::Result<()> {
        if let Ok(Kind::Folder) = self.kind_of(to) {
            return Err(Error::from(ErrorKind::PermissionDenied));
        }
        let mut files = self.files.borrow_mut();
        let bytes = files.remove(&plain(from)).ok_or_else(|| Error::from(ErrorKind::NotFound))?;
        files.insert(plain(to), bytes);
        Ok(())
    }
    fn remove(&self, name: &str) -> io::Result<()> {
        if let Ok(Kind::Folder) = self.kind_of(name) {
            return Err(Error::from(ErrorKind::PermissionDenied));
        }
        let removed = self.files.borrow_mut().remove(&plain(name));
        removed.map(|_| ()).ok_or_else(|| Error::from(ErrorKind::NotFound))
    }
}

impl Threads for Kept {
    fn processors(&self) -> usize {
        1
    }
    fn map<T: Send, F: Fn(usize) -> T + Sync>(&self, count: usize, work: &F) -> Vec<T> {
        (0..count).map(work).collect()
    }
}
