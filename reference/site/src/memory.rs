//! Memory with a hard end, and memory of any size that reads as zeros. Linux, 64 bits.

use std::ffi::c_void;
use std::ptr::null_mut;
use std::slice::{from_raw_parts, from_raw_parts_mut};

extern "C" {
    fn mmap(
        at: *mut c_void,
        length: usize,
        prot: i32,
        flags: i32,
        fd: i32,
        off: i64,
    ) -> *mut c_void;
    fn mprotect(at: *mut c_void, length: usize, prot: i32) -> i32;
    fn munmap(at: *mut c_void, length: usize) -> i32;
}

const NONE: i32 = 0;
const READ: i32 = 1;
const WRITE: i32 = 2;
/// Private, of no file, and no memory set aside before it is written.
const FLAGS: i32 = 0x2 | 0x20 | 0x4000;
/// A multiple of every page size in use.
const PAGE: usize = 65_536;

/// A mapping, given back when dropped.
struct Mapping {
    start: *mut u8,
    length: usize,
}

impl Mapping {
    fn new(length: usize, prot: i32) -> Mapping {
        // SAFETY: a new mapping touches no memory in use.
        let start = unsafe { mmap(null_mut(), length, prot, FLAGS, -1, 0) };
        assert!(start as isize != -1, "no mapping of {length} bytes");
        let start = start.cast();
        Mapping { start, length }
    }
}

impl Drop for Mapping {
    fn drop(&mut self) {
        // SAFETY: the mapping is this one's and no slice of it outlives it.
        unsafe { munmap(self.start.cast(), self.length) };
    }
}

/// Zeros that can be read and not be written, however many.
pub struct Zeros(Mapping);

impl Zeros {
    pub fn new(length: usize) -> Zeros {
        Zeros(Mapping::new(length, READ))
    }

    pub fn bytes(&self) -> &[u8] {
        // SAFETY: the whole mapping can be read.
        unsafe { from_raw_parts(self.0.start, self.0.length) }
    }
}

/// Memory behind whose last byte nothing can be read: a read past the end ends the process.
pub struct Edge {
    mapping: Mapping,
    room: usize,
}

impl Edge {
    /// Room for so many bytes at least.
    pub fn new(room: usize) -> Edge {
        let room = room.next_multiple_of(PAGE);
        let mapping = Mapping::new(room + PAGE, READ | WRITE);
        // SAFETY: the last page of the mapping, which is not in use yet.
        let done = unsafe { mprotect(mapping.start.add(room).cast(), PAGE, NONE) };
        assert!(done == 0, "no memory with a hard end");
        Edge { mapping, room }
    }

    /// A copy of the bytes that begins at an address modulo 4 and ends at the edge, or up to three
    /// bytes before it; those are all ones.
    pub fn place(&mut self, bytes: &[u8], address: usize) -> &[u8] {
        let before = (8 - bytes.len() % 4 - address) % 4;
        // SAFETY: all but the last page can be read and written, and is lent here only.
        let memory = unsafe { from_raw_parts_mut(self.mapping.start, self.room) };
        let (front, rest) = memory.split_at_mut(self.room - before);
        rest.fill(0xFF);
        let start = front.len() - bytes.len();
        front[start..].copy_from_slice(bytes);
        &front[start..]
    }
}
