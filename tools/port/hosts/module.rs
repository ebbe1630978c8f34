//! The program as a WebAssembly module: words, files and input come from its host, and what it prints goes there.
//!
//! The host has `host.read(at, room)`, which fills memory with input and says with how many bytes, and
//! `host.write(stream, at, length)`. It calls `room` for memory to put a text to, `put` to give a file, `get` and `got`
//! to be given one, `remove` to take one away, and `arena` with the words, which zeros part.
mod kept;

use kept::Kept;
use rattle::alloc::Global;
use std::cell::RefCell;
use std::io::{BufWriter, Read, Write};

#[link(wasm_import_module = "host")]
extern "C" {
    fn read(at: *mut u8, room: usize) -> usize;
    fn write(stream: u32, at: *const u8, length: usize) -> usize;
}

struct Page {
    kept: Kept,
    texts: [Vec<u8>; 3],
    found: Vec<u8>,
}

static mut PAGE: Option<Page> = None;

fn page() -> &'static mut Page {
    unsafe {
        PAGE.get_or_insert_with(|| Page {
            kept: Kept::default(),
            texts: [Vec::new(), Vec::new(), Vec::new()],
            found: Vec::new(),
        })
    }
}

struct In;
struct Stream(u32);

impl Read for In {
    fn read(&mut self, buffer: &mut [u8]) -> std::io::Result<usize> {
        let count = unsafe { read(buffer.as_mut_ptr(), buffer.len()) };
        if count > buffer.len() {
            return Err(std::io::ErrorKind::Other.into());
        }
        Ok(count)
    }
}
impl Write for Stream {
    fn write(&mut self, bytes: &[u8]) -> std::io::Result<usize> {
        Ok(unsafe { write(self.0, bytes.as_ptr(), bytes.len()) })
    }
    fn flush(&mut self) -> std::io::Result<()> {
        Ok(())
    }
}

/// Memory for the first or the second text of a call, or for what is kept while the host takes its time to read.
#[no_mangle]
pub extern "C" fn room(which: usize, length: usize) -> *mut u8 {
    let text = &mut page().texts[which];
    text.clear();
    text.resize(length, 0);
    text.as_mut_ptr()
}

fn name() -> String {
    String::from_utf8_lossy(&page().texts[0]).into_owned()
}

/// Keeps the second text as the file that the first text names.
#[no_mangle]
pub extern "C" fn put() {
    let bytes = std::mem::take(&mut page().texts[1]);
    page().kept.files.borrow_mut().insert(name(), bytes);
}

/// Returns the length of the file named by the first text, or -1. `got` returns the address of its bytes.
#[no_mangle]
pub extern "C" fn get() -> i32 {
    let found = page().kept.files.borrow().get(&name()).cloned();
    match found {
        Some(bytes) => {
            page().found = bytes;
            page().found.len() as i32
        }
        None => -1,
    }
}

#[no_mangle]
pub extern "C" fn got() -> *const u8 {
    page().found.as_ptr()
}

/// The names of all files, each with a line feed behind it, as `get` gives a file.
#[no_mangle]
pub extern "C" fn names() -> i32 {
    let found: String = page().kept.files.borrow().keys().map(|name| name.clone() + "\n").collect();
    page().found = found.into_bytes();
    page().found.len() as i32
}

#[no_mangle]
pub extern "C" fn remove() {
    page().kept.files.borrow_mut().remove(&name());
}

/// Does what the words in the first text order, and answers the exit status.
#[no_mangle]
pub extern "C" fn arena() -> i32 {
    let text = name();
    let words: Vec<rattle::collections::String> = text
        .split('\0')
        .filter(|_| !text.is_empty())
        .map(|word| rattle::collections::String::from_std(Global, word.to_string()))
        .collect();
    let mut writer = BufWriter::with_capacity(32 * 1024, Stream(1));
    let status = bhs_cli_run::run(Global, &page().kept, &words, &mut In, &mut writer, &mut Stream(2));
    drop(writer);
    status.into()
}
