//! Inputs lent to a call. Each ends where pages begin that cannot be read or
//! written, so that a read of even one byte past it kills the process.

use std::ffi::{c_int, c_long, c_void};
use std::ptr::null_mut;
use std::slice::from_raw_parts;

/// Bytes of the longest input, and of the pages after it: whole pages of any
/// size up to this.
const ROOM: usize = 1 << 19;

// As Linux numbers them.
const PROT_NONE: c_int = 0;
const PROT_READ: c_int = 1;
const PROT_WRITE: c_int = 2;
const MAP_PRIVATE: c_int = 2;
const MAP_ANONYMOUS: c_int = 32;

extern "C" {
    fn mmap(
        address: *mut c_void,
        length: usize,
        protection: c_int,
        flags: c_int,
        file: c_int,
        offset: c_long,
    ) -> *mut c_void;

    fn mprotect(address: *mut c_void, length: usize, protection: c_int) -> c_int;
}

thread_local! {
    static EDGES: [*mut u8; 2] = [edge(), edge()];
}

/// Maps room for an input; its end, where the pages that cannot be read begin.
fn edge() -> *mut u8 {
    let protection = PROT_READ | PROT_WRITE;
    let flags = MAP_PRIVATE | MAP_ANONYMOUS;
    unsafe {
        let room = mmap(null_mut(), 2 * ROOM, protection, flags, -1, 0);
        assert!(room as isize != -1, "no room is mapped");
        let edge = room.byte_add(ROOM);
        let status = mprotect(edge, ROOM, PROT_NONE);
        assert!(status == 0, "the pages after the room can be read");
        edge.cast()
    }
}

/// A copy of an input in one of its thread's rooms, there until the thread lends
/// that room again.
pub struct Lent<T> {
    pointer: *mut T,
    length: usize,
}

impl<T: Copy + PartialEq> Lent<T> {
    pub fn new(input: &[T]) -> Lent<T> {
        Lent::in_room(0, input)
    }

    /// A second input beside the first.
    pub fn beside(input: &[T]) -> Lent<T> {
        Lent::in_room(1, input)
    }

    fn in_room(room: usize, input: &[T]) -> Lent<T> {
        assert!(size_of_val(input) <= ROOM, "the input is too long to lend");
        let edge = EDGES.with(|edges| edges[room].cast::<T>());
        unsafe {
            let pointer = edge.sub(input.len());
            pointer.copy_from_nonoverlapping(input.as_ptr(), input.len());
            Lent {
                pointer,
                length: input.len(),
            }
        }
    }

    pub fn pointer(&self) -> *const T {
        self.pointer
    }

    pub fn length(&self) -> usize {
        self.length
    }

    /// Whether the copy is still the input.
    pub fn is(&self, input: &[T]) -> bool {
        unsafe { from_raw_parts(self.pointer, self.length) == input }
    }
}
