//! Memory between two pages that may not be touched.

use std::ffi::c_void;

const PAGE: usize = 4096;
/// What stands beside a lent slice, where no guard page does.
const BESIDE: u8 = 0xb7;
/// How many such bytes are watched.
const WATCHED: usize = 64;

extern "C" {
    fn mmap(
        at: *mut c_void,
        len: usize,
        access: i32,
        flags: i32,
        file: i32,
        from: i64,
    ) -> *mut c_void;
    fn munmap(at: *mut c_void, len: usize) -> i32;
    fn mprotect(at: *mut c_void, len: usize, access: i32) -> i32;
}

const NO_ACCESS: i32 = 0;
const READ_AND_WRITE: i32 = 3;
const SHARED: i32 = 1;
const PRIVATE: i32 = 2;
const ANONYMOUS: i32 = 32;

fn map(length: usize, access: i32, flags: i32) -> *mut u8 {
    let at = unsafe { mmap(std::ptr::null_mut(), length, access, flags | ANONYMOUS, -1, 0) };
    assert!(at as isize != -1, "mmap of {length} bytes");
    at.cast()
}

/// A zeroed value that a forked process shares with this one.
pub fn shared<T>() -> &'static T {
    unsafe { &*map(std::mem::size_of::<T>(), READ_AND_WRITE, SHARED).cast() }
}

/// Which guard page a slice touches.
#[derive(Clone, Copy, Debug, PartialEq, Eq)]
pub enum Side {
    Front,
    Back,
}

/// Pages between two guard pages, with one slice placed in them.
pub struct Region {
    mapped: *mut u8,
    room: usize,
    at: usize,
    length: usize,
}

impl Region {
    pub fn new(most: usize) -> Region {
        let room = (most + WATCHED).div_ceil(PAGE) * PAGE;
        let mapped = map(room + 2 * PAGE, NO_ACCESS, PRIVATE);
        let changed = unsafe { mprotect(mapped.add(PAGE).cast(), room, READ_AND_WRITE) };
        assert_eq!(changed, 0, "mprotect");
        let mut region = Region { mapped, room, at: 0, length: 0 };
        region.place(0, Side::Back);
        region
    }

    /// Places a slice of this length against a guard page. Its bytes are what stands there.
    pub fn place(&mut self, length: usize, side: Side) -> &mut [u8] {
        assert!(length + WATCHED <= self.room);
        self.length = length;
        self.at = match side {
            Side::Front => 0,
            Side::Back => self.room - length,
        };
        self.beside().fill(BESIDE);
        self.bytes_mut()
    }

    /// Places these bytes against a guard page.
    pub fn lend(&mut self, bytes: &[u8], side: Side) -> &mut [u8] {
        let placed = self.place(bytes.len(), side);
        placed.copy_from_slice(bytes);
        placed
    }

    pub fn bytes(&self) -> &[u8] {
        unsafe { std::slice::from_raw_parts(self.mapped.add(PAGE + self.at), self.length) }
    }

    pub fn bytes_mut(&mut self) -> &mut [u8] {
        unsafe { std::slice::from_raw_parts_mut(self.mapped.add(PAGE + self.at), self.length) }
    }

    /// The bytes beside the slice are untouched.
    pub fn kept_beside(&mut self) -> bool {
        self.beside().iter().all(|byte| *byte == BESIDE)
    }

    fn beside(&mut self) -> &mut [u8] {
        let start = if self.at == 0 { self.length } else { self.at - WATCHED };
        unsafe { std::slice::from_raw_parts_mut(self.mapped.add(PAGE + start), WATCHED) }
    }
}

impl Drop for Region {
    fn drop(&mut self) {
        unsafe { munmap(self.mapped.cast(), self.room + 2 * PAGE) };
    }
}
