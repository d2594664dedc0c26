//! Buffers between guard pages: a read or a write one byte past either end stops the program.

use std::{ffi::c_void, marker::PhantomData, ops::{Deref, DerefMut}};

mod declared {
    use std::ffi::{c_int, c_void};
    extern "C" {
        pub fn mmap(at: *mut c_void, length: usize, protection: c_int, flags: c_int, file: c_int, offset: i64) -> *mut c_void;
        pub fn mprotect(at: *mut c_void, length: usize, protection: c_int) -> c_int;
        pub fn munmap(at: *mut c_void, length: usize) -> c_int;
    }
    // Linux on x86-64
    pub const NONE: c_int = 0;
    pub const READ_WRITE: c_int = 3;
    pub const PRIVATE_ANONYMOUS: c_int = 0x22;
}

const PAGE: usize = 4096;

/// Which end of the numbers lies against a guard page.
#[derive(Clone, Copy)]
pub enum Against {
    Start,
    End,
}

/// Numbers between two pages that nobody may touch.
pub struct Guarded<T: Copy> {
    pages: *mut c_void,
    bytes: usize,
    at: *mut T,
    length: usize,
    number: PhantomData<T>,
}

impl<T: Copy> Guarded<T> {
    pub fn new(numbers: &[T], against: Against) -> Self {
        let wanted = std::mem::size_of_val(numbers);
        let room = wanted.div_ceil(PAGE) * PAGE;
        let bytes = room + 2 * PAGE;
        unsafe {
            let pages = declared::mmap(std::ptr::null_mut(), bytes, declared::NONE, declared::PRIVATE_ANONYMOUS, -1, 0);
            assert!(pages as isize != -1, "no memory");
            let first = pages.cast::<u8>().add(PAGE);
            if room > 0 {
                assert_eq!(declared::mprotect(first.cast(), room, declared::READ_WRITE), 0);
            }
            let at = match against {
                Against::Start => first,
                Against::End => first.add(room - wanted),
            }
            .cast::<T>();
            std::ptr::copy_nonoverlapping(numbers.as_ptr(), at, numbers.len());
            Guarded { pages, bytes, at, length: numbers.len(), number: PhantomData }
        }
    }
}

impl<T: Copy> Deref for Guarded<T> {
    type Target = [T];
    fn deref(&self) -> &[T] {
        unsafe { std::slice::from_raw_parts(self.at, self.length) }
    }
}

impl<T: Copy> DerefMut for Guarded<T> {
    fn deref_mut(&mut self) -> &mut [T] {
        unsafe { std::slice::from_raw_parts_mut(self.at, self.length) }
    }
}

impl<T: Copy> Drop for Guarded<T> {
    fn drop(&mut self) {
        unsafe { declared::munmap(self.pages, self.bytes) };
    }
}
