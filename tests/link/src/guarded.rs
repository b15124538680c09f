//! Memory in which a list stands at the very end or the very beginning of what may be touched, so that a
//! call that reads or writes a place beside its list is stopped by the machine.

use std::ptr::null_mut;
use std::slice;

extern "C" {
    fn mmap(at: *mut u8, length: usize, access: i32, kind: i32, file: i32, offset: i64) -> *mut u8;
    fn mprotect(at: *mut u8, length: usize, access: i32) -> i32;
}

const NO_ACCESS: i32 = 0;
const READ_AND_WRITE: i32 = 3;
/// Private to this process, with no file behind it.
const PRIVATE: i32 = 0x22;

const PAGE: usize = 4096;
const INNER: usize = 16 * PAGE;

/// How many 32-bit numbers a list may have.
pub const ROOM: usize = INNER / size_of::<u32>();

/// What a list may be of: 32-bit numbers, and the bytes of captions and pages.
pub trait Number: Copy {}

impl Number for u32 {}
impl Number for u8 {}

/// Sixteen pages between two that may not be touched. They are never given back.
pub struct Guarded {
    inner: *mut u8,
}

impl Default for Guarded {
    fn default() -> Guarded {
        // SAFETY: new pages, of which all but the first and the last may be used.
        unsafe {
            let pages = mmap(null_mut(), INNER + 2 * PAGE, NO_ACCESS, PRIVATE, -1, 0);
            assert!(pages as isize != -1, "no memory");
            let inner = pages.add(PAGE);
            assert_eq!(mprotect(inner, INNER, READ_AND_WRITE), 0);
            Guarded { inner }
        }
    }
}

impl Guarded {
    /// The numbers as a list at the end of the pages, or at their beginning.
    pub fn hold<T: Number>(&mut self, numbers: &[T], at_end: bool) -> &mut [T] {
        let room = INNER / size_of::<T>();
        assert!(numbers.len() <= room);
        let from = if at_end { room - numbers.len() } else { 0 };
        let start: *mut T = self.inner.cast();
        // SAFETY: so many numbers stand from there on, and the list holds on to them.
        let list = unsafe { slice::from_raw_parts_mut(start.add(from), numbers.len()) };
        list.copy_from_slice(numbers);
        list
    }
}
