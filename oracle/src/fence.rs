//! Memory whose last byte is followed by a page that cannot be touched: a read past the end of an input stops the run.
use std::ffi::c_void;

extern "C" {
    fn mmap(at: *mut c_void, len: usize, access: i32, flags: i32, file: i32, offset: i64) -> *mut c_void;
    fn munmap(at: *mut c_void, len: usize) -> i32;
    fn mprotect(at: *mut c_void, len: usize, access: i32) -> i32;
}

const NO_ACCESS: i32 = 0;
const READ_WRITE: i32 = 3;
const PRIVATE_ANONYMOUS: i32 = 0x22;
const PAGE: usize = 4096;

pub struct Fence {
    start: *mut u8,
    /// Bytes before the page that cannot be touched.
    room: usize,
}

impl Fence {
    fn with_room(room: usize) -> Fence {
        unsafe {
            let start = mmap(std::ptr::null_mut(), room + PAGE, READ_WRITE, PRIVATE_ANONYMOUS, -1, 0);
            assert!(start as isize != -1, "no memory for an input of {room} bytes");
            let start = start as *mut u8;
            assert_eq!(mprotect(start.add(room) as *mut c_void, PAGE, NO_ACCESS), 0);
            Fence { start, room }
        }
    }

    /// A copy of the bytes that ends where the fence begins.
    pub fn place(&mut self, bytes: &[u8]) -> *const u8 {
        if bytes.len() > self.room {
            *self = Fence::with_room(bytes.len().next_multiple_of(PAGE));
        }
        unsafe {
            let at = self.start.add(self.room - bytes.len());
            std::ptr::copy_nonoverlapping(bytes.as_ptr(), at, bytes.len());
            at
        }
    }
}

impl Default for Fence {
    fn default() -> Fence {
        Fence::with_room(16 * PAGE)
    }
}

impl Drop for Fence {
    fn drop(&mut self) {
        unsafe {
            munmap(self.start as *mut c_void, self.room + PAGE);
        }
    }
}
