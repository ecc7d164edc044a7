//! Memory of its own for what is lent in a call, so that an access to a byte
//! beside it is noticed: on the heap by a tool that knows the blocks there, and
//! between pages by the processor, whatever code it runs.

use std::ffi::{c_int, c_void};
use std::ops::{Deref, DerefMut};
use std::{ptr, slice};

/// Where a block lies.
#[derive(Clone, Copy, Debug, PartialEq, Eq)]
pub enum Placement {
    /// A block of the heap of exactly its size.
    Heap,
    /// Ends where a page without access begins.
    End,
    /// Begins where a page without access ends.
    Front,
}

impl Placement {
    pub const ALL: [(&'static str, Placement); 3] =
        [("heap", Placement::Heap), ("end", Placement::End), ("front", Placement::Front)];
}

#[derive(Clone, Copy, Debug, PartialEq, Eq)]
pub enum Access {
    /// Between pages, a write is noticed too.
    ReadOnly,
    ReadWrite,
}

/// A copy of some values in memory of its own.
pub enum Block<T> {
    Heap(Box<[T]>),
    Pages(Pages<T>),
}

impl<T: Copy> Block<T> {
    pub fn of(values: &[T], placement: Placement, access: Access) -> Block<T> {
        match placement {
            Placement::Heap => Block::Heap(values.into()),
            _ => Block::Pages(Pages::of(values, placement, access)),
        }
    }
}

impl<T> Deref for Block<T> {
    type Target = [T];

    fn deref(&self) -> &[T] {
        match self {
            Block::Heap(values) => values,
            // Mapped, and filled with so many values.
            Block::Pages(pages) => unsafe { slice::from_raw_parts(pages.values, pages.length) },
        }
    }
}

impl<T> DerefMut for Block<T> {
    fn deref_mut(&mut self) -> &mut [T] {
        match self {
            Block::Heap(values) => values,
            Block::Pages(pages) => unsafe { slice::from_raw_parts_mut(pages.values, pages.length) },
        }
    }
}

/// Whole pages with one without access on either side.
pub struct Pages<T> {
    mapping: *mut c_void,
    mapped: usize,
    values: *mut T,
    length: usize,
}

/// Of x86-64.
const PAGE: usize = 4_096;

impl<T: Copy> Pages<T> {
    fn of(values: &[T], placement: Placement, access: Access) -> Pages<T> {
        let used = size_of_val(values);
        let inner = used.next_multiple_of(PAGE);
        let mapped = inner + 2 * PAGE;
        let start = match placement {
            Placement::Front => PAGE,
            _ => PAGE + inner - used,
        };
        // A new mapping that nothing else knows; `start` is a multiple of the
        // alignment, as the size of a value is.
        unsafe {
            let flags = libc::MAP_PRIVATE | libc::MAP_ANONYMOUS;
            let mapping = libc::mmap(ptr::null_mut(), mapped, libc::PROT_NONE, flags, -1, 0);
            assert_ne!(mapping, ptr::without_provenance_mut(usize::MAX), "no memory");
            let pages = Pages {
                mapping,
                mapped,
                values: mapping.byte_add(start).cast::<T>(),
                length: values.len(),
            };
            pages.protect(inner, libc::PROT_READ | libc::PROT_WRITE);
            ptr::copy_nonoverlapping(values.as_ptr(), pages.values, values.len());
            if access == Access::ReadOnly {
                pages.protect(inner, libc::PROT_READ);
            }
            pages
        }
    }

    unsafe fn protect(&self, inner: usize, access: c_int) {
        let done = libc::mprotect(self.mapping.byte_add(PAGE), inner, access);
        assert_eq!(done, 0, "pages are not protected");
    }
}

impl<T> Drop for Pages<T> {
    fn drop(&mut self) {
        unsafe {
            libc::munmap(self.mapping, self.mapped);
        }
    }
}

/// Of the C library, which the standard library links.
mod libc {
    use super::{c_int, c_void};

    pub const PROT_NONE: c_int = 0;
    pub const PROT_READ: c_int = 1;
    pub const PROT_WRITE: c_int = 2;
    pub const MAP_PRIVATE: c_int = 2;
    pub const MAP_ANONYMOUS: c_int = 0x20;

    extern "C" {
        pub fn mmap(
            address: *mut c_void,
            length: usize,
            access: c_int,
            flags: c_int,
            file: c_int,
            offset: i64,
        ) -> *mut c_void;
        pub fn mprotect(address: *mut c_void, length: usize, access: c_int) -> c_int;
        pub fn munmap(address: *mut c_void, length: usize) -> c_int;
    }
}
