//! Memory of which a part can't be read: whatever reads there is killed, and the test with it.

use std::ffi::{c_int, c_long, c_void};
use std::ptr;

/// The bytes of a page.
const PAGE: usize = 4096;

const PROT_NONE: c_int = 0;
const PROT_READ: c_int = 1;
const PROT_WRITE: c_int = 2;
const MAP_PRIVATE: c_int = 2;
const MAP_ANONYMOUS: c_int = 0x20;

extern "C" {
    fn mmap(
        at: *mut c_void,
        len: usize,
        rights: c_int,
        flags: c_int,
        file: c_int,
        offset: c_long,
    ) -> *mut c_void;
    fn mprotect(at: *mut c_void, len: usize, rights: c_int) -> c_int;
    fn munmap(at: *mut c_void, len: usize) -> c_int;
}

/// Bytes of which those from an offset on can't be read.
pub struct Fenced {
    map: *mut u8,
    map_len: usize,
    /// Where the bytes start in the map, so that the offset is the start of a page.
    start: usize,
    len: usize,
}

impl Fenced {
    pub fn new(bytes: &[u8], offset: usize) -> Fenced {
        assert!(offset <= bytes.len());
        let start = (PAGE - offset % PAGE) % PAGE;
        let fence = start + offset;
        let map_len = (start + bytes.len()).next_multiple_of(PAGE) + PAGE;
        let rights = PROT_READ | PROT_WRITE;
        let flags = MAP_PRIVATE | MAP_ANONYMOUS;
        // SAFETY: the memory is new, has room for the bytes from `start` on, and nobody else knows of
        // it; `fence` is a multiple of a page's length, and lies in it.
        let map = unsafe {
            let map = mmap(ptr::null_mut(), map_len, rights, flags, -1, 0);
            assert!(map as isize != -1, "no memory");
            let map: *mut u8 = map.cast();
            ptr::copy_nonoverlapping(bytes.as_ptr(), map.add(start), bytes.len());
            let closed = mprotect(map.add(fence).cast(), map_len - fence, PROT_NONE);
            assert_eq!(closed, 0, "no fence");
            map
        };
        Fenced {
            map,
            map_len,
            start,
            len: bytes.len(),
        }
    }

    /// The bytes as a call takes them: no slice, since not all of them can be read.
    pub fn lend(&self) -> (*const u8, usize) {
        (self.map.wrapping_add(self.start), self.len)
    }
}

impl Drop for Fenced {
    fn drop(&mut self) {
        // SAFETY: the memory is this one's own.
        unsafe { munmap(self.map.cast(), self.map_len) };
    }
}
