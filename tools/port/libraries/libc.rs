//! The calls of the C library that the server makes.

pub const STDIN_FILENO: i32 = 0;

mod c {
    extern "C" {
        pub fn isatty(descriptor: i32) -> i32;
        pub fn tcgetpgrp(descriptor: i32) -> i32;
        pub fn getpgrp() -> i32;
        pub fn listen(descriptor: i32, backlog: i32) -> i32;
        pub fn shutdown(descriptor: i32, which: i32) -> i32;
        pub fn poll(asked: *mut crate::types::pollfd, count: u64, milliseconds: i32) -> i32;
    }
}

pub fn isatty(descriptor: i32) -> i32 {
    unsafe { c::isatty(descriptor) }
}
pub fn tcgetpgrp(descriptor: i32) -> i32 {
    unsafe { c::tcgetpgrp(descriptor) }
}
pub fn getpgrp() -> i32 {
    unsafe { c::getpgrp() }
}

pub mod types {
    #[repr(C)]
    pub struct pollfd {
        pub fd: i32,
        pub events: i16,
        pub revents: i16,
    }
}

pub mod net {
    use crate::c;
    use crate::types::pollfd;

    pub const POLLIN: i16 = 1;
    pub const POLLNVAL: i16 = 32;
    pub const SHUT_RDWR: i32 = 2;

    pub fn listen(descriptor: i32, backlog: i32) -> i32 {
        unsafe { c::listen(descriptor, backlog) }
    }
    pub fn shutdown(descriptor: i32, which: i32) -> i32 {
        unsafe { c::shutdown(descriptor, which) }
    }
    pub fn poll(asked: &mut [pollfd], milliseconds: i32) -> i32 {
        unsafe { c::poll(asked.as_mut_ptr(), asked.len() as u64, milliseconds) }
    }
}
