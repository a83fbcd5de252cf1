//! Memory between two pages that nobody may touch. An array lies against one of them, so that a library that reads or
//! writes one place too far on that side is stopped there; on the other side a strip of known bytes shows what was
//! written. Each side has its turn.

use std::ffi::c_void;
use std::mem::size_of;
use std::{ptr, slice};

/// Against which page an array lies.
#[derive(Clone, Copy, Debug, PartialEq, Eq)]
pub enum Edge {
    /// Its first place is right behind a page.
    Start,
    /// Its last place is right before one.
    End,
}

impl Edge {
    /// By turns.
    pub fn of_turn(turn: usize) -> Edge {
        match turn % 2 {
            0 => Edge::End,
            _ => Edge::Start,
        }
    }
}

/// How wide the strip is, and what it holds.
const STRIP: usize = 256;
const KNOWN: u8 = 0xA5;

/// One array that moves from edge to edge and from length to length. It is kept to the end of the run, and so is never
/// unmapped.
pub struct Guarded<T> {
    /// What may be touched: the bytes between the two pages.
    open: *mut u8,
    bytes: usize,
    edge: Edge,
    array: *mut T,
    count: usize,
}

impl<T: Copy> Guarded<T> {
    /// Room for so many places.
    pub fn new(most: usize) -> Guarded<T> {
        // Safe: a number out.
        let page = unsafe { sysconf(PAGE_SIZE) } as usize;
        let bytes = (most * size_of::<T>()).next_multiple_of(page).max(page);
        // Safe: fresh memory that nothing else knows of, of which both pages are a part.
        let open = unsafe {
            let all = mmap(ptr::null_mut(), bytes + 2 * page, READ | WRITE, PRIVATE | ANONYMOUS, -1, 0);
            assert!(all as isize != FAILED, "no memory");
            let before = all.cast::<u8>();
            let open = before.add(page);
            assert!(mprotect(before.cast(), page, NOTHING) == 0, "no page before");
            assert!(mprotect(open.add(bytes).cast(), page, NOTHING) == 0, "no page behind");
            open
        };
        Guarded { open, bytes, edge: Edge::Start, array: open.cast(), count: 0 }
    }

    /// These values, against a page.
    pub fn put(&mut self, values: &[T], edge: Edge) {
        let length = std::mem::size_of_val(values);
        assert!(length <= self.bytes, "room for {} bytes is too little for {length}", self.bytes);
        self.edge = edge;
        self.count = values.len();
        // Safe: within the open bytes. Pages are aligned for any T, and the length is a multiple of its size.
        unsafe {
            self.array = match edge {
                Edge::Start => self.open,
                Edge::End => self.open.add(self.bytes - length),
            }
            .cast();
            let (strip, width) = self.strip();
            ptr::write_bytes(strip, KNOWN, width);
        }
        self.slice_mut().copy_from_slice(values);
    }

    pub fn slice(&self) -> &[T] {
        // Safe: `put` wrote these places, and nothing else refers to them. So below.
        unsafe { slice::from_raw_parts(self.array, self.count) }
    }

    pub fn slice_mut(&mut self) -> &mut [T] {
        unsafe { slice::from_raw_parts_mut(self.array, self.count) }
    }

    /// The same, of a length that the type has.
    pub fn array<const N: usize>(&mut self) -> &mut [T; N] {
        self.slice_mut().try_into().expect("as long as it was put")
    }

    /// Whether nothing was written on the side without a page.
    pub fn kept_within(&self) -> bool {
        let (strip, width) = self.strip();
        // Safe: within the open bytes, and `put` wrote it.
        unsafe { slice::from_raw_parts(strip, width) }.iter().all(|&byte| byte == KNOWN)
    }

    /// The bytes beside the array where there is no page, and how many they are.
    fn strip(&self) -> (*mut u8, usize) {
        let length = self.count * size_of::<T>();
        let width = STRIP.min(self.bytes - length);
        let array = self.array.cast::<u8>();
        match self.edge {
            Edge::Start => (array.wrapping_add(length), width),
            Edge::End => (array.wrapping_sub(width), width),
        }
    }
}

// From the C library of Linux.
const PAGE_SIZE: i32 = 30;
const NOTHING: i32 = 0;
const READ: i32 = 1;
const WRITE: i32 = 2;
const PRIVATE: i32 = 2;
const ANONYMOUS: i32 = 0x20;
const FAILED: isize = -1;

extern "C" {
    fn sysconf(name: i32) -> isize;
    fn mmap(
        address: *mut c_void,
        length: usize,
        protection: i32,
        flags: i32,
        file: i32,
        offset: i64,
    ) -> *mut c_void;
    fn mprotect(address: *mut c_void, length: usize, protection: i32) -> i32;
}
