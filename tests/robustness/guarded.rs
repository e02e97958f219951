//! Lists between guard regions.
//!
//! A list stands in whole pages of memory, with a region on each side that no access is allowed to. Its end is flush with the region
//! after it, or its start with the region before it. The same memory is mapped twice, for reading and writing, and for reading alone:
//! what a call may not write is lent by the second mapping, where a write faults.

use std::collections::HashMap;
use std::ffi::{c_char, c_int, c_uint, c_void};

extern "C" {
    fn memfd_create(name: *const c_char, flags: c_uint) -> c_int;
    fn ftruncate(file: c_int, length: i64) -> c_int;
    fn close(file: c_int) -> c_int;
    fn mmap(address: *mut c_void, length: usize, protection: c_int, flags: c_int, file: c_int, offset: i64) -> *mut c_void;
}

const NO_ACCESS: c_int = 0;
const READ: c_int = 1;
const WRITE: c_int = 2;
const SHARED: c_int = 0x01;
const PRIVATE: c_int = 0x02;
const FIXED: c_int = 0x10;
const ANONYMOUS: c_int = 0x20;
const NO_RESERVE: c_int = 0x4000;

const SYSTEM_PAGE: usize = 4096;
const GUARD: usize = 64 << 20;

fn mapped(address: *mut c_void) -> *mut c_void {
    assert!(address as isize != -1, "mmap: {}", std::io::Error::last_os_error());
    address
}

/// The file's `bytes`, between two guard regions.
fn between_guards(file: c_int, bytes: usize, protection: c_int) -> *mut u8 {
    let none = std::ptr::null_mut();
    unsafe {
        let all = mapped(mmap(none, bytes + 2 * GUARD, NO_ACCESS, PRIVATE | ANONYMOUS | NO_RESERVE, -1, 0));
        mapped(mmap(all.byte_add(GUARD), bytes, protection, SHARED | FIXED, file, 0)).cast()
    }
}

/// Memory that is mapped for reading and writing, and for reading alone.
#[derive(Clone, Copy)]
struct Mapping {
    writable: *mut u8,
    readable: *mut u8,
    bytes: usize,
}

impl Mapping {
    fn new(bytes: usize) -> Self {
        unsafe {
            let file = memfd_create(c"list".as_ptr(), 0);
            assert!(file >= 0 && ftruncate(file, bytes as i64) == 0, "memfd: {}", std::io::Error::last_os_error());
            let writable = between_guards(file, bytes, READ | WRITE);
            let readable = between_guards(file, bytes, READ);
            close(file);
            Self { writable, readable, bytes }
        }
    }
}

/// Mappings made so far, by the list that they are for and their size; they are used again.
#[derive(Default)]
pub struct Mappings(HashMap<(usize, usize), Mapping>);

impl Mappings {
    fn of(&mut self, list: usize, bytes: usize) -> Mapping {
        let bytes = bytes.next_multiple_of(SYSTEM_PAGE);
        *self.0.entry((list, bytes)).or_insert_with(|| Mapping::new(bytes))
    }
}

/// With which guard region a list is flush.
#[derive(Clone, Copy, PartialEq, Eq)]
pub enum Flush {
    Before,
    After,
}

pub struct List {
    mapping: Mapping,
    flush: Flush,
    element: usize,
    count: usize,
    /// The whole mapping as it was before the call.
    before: Vec<u64>,
}

impl List {
    /// `count` elements of `element` bytes.
    pub fn new(mappings: &mut Mappings, list: usize, element: usize, count: usize, flush: Flush) -> Self {
        let mapping = mappings.of(list, element * count);
        let before = vec![0; mapping.bytes / 8];
        Self { mapping, flush, element, count, before }
    }

    pub fn count(&self) -> usize {
        self.count
    }

    /// Where `count` elements begin in the mapping.
    fn offset(&self, count: usize) -> usize {
        match self.flush {
            Flush::Before => 0,
            Flush::After => self.mapping.bytes - self.element * count,
        }
    }

    /// The start of the list, lent with `count` elements, to be written or not.
    pub fn lent(&self, count: usize, writable: bool) -> *mut u8 {
        let mapping = if writable { self.mapping.writable } else { self.mapping.readable };
        unsafe { mapping.add(self.offset(count)) }
    }

    /// The whole mapping, to be filled.
    pub fn whole(&mut self) -> &mut [u64] {
        unsafe { std::slice::from_raw_parts_mut(self.mapping.writable.cast(), self.mapping.bytes / 8) }
    }

    fn part<T>(&self, from: *const u8, count: usize) -> &[T] {
        assert!(self.element == size_of::<T>());
        unsafe { std::slice::from_raw_parts(from.add(self.offset(count)).cast(), count) }
    }

    /// The list as it is now, lent with `count` elements.
    pub fn now<T>(&self, count: usize) -> &[T] {
        self.part(self.mapping.readable, count)
    }

    pub fn numbers_before(&self) -> &[u32] {
        self.part(self.before.as_ptr().cast(), self.count)
    }

    pub fn words_before(&self) -> &[u64] {
        self.part(self.before.as_ptr().cast(), self.count)
    }

    fn part_mut<T>(&mut self, count: usize) -> &mut [T] {
        assert!(self.element == size_of::<T>());
        unsafe { std::slice::from_raw_parts_mut(self.lent(count, true).cast(), count) }
    }

    pub fn numbers(&mut self) -> &mut [u32] {
        self.part_mut(self.count)
    }

    pub fn words(&mut self) -> &mut [u64] {
        self.part_mut(self.count)
    }

    /// These numbers are the whole list, lent with so many elements.
    pub fn put(&mut self, numbers: &[u32]) {
        self.part_mut(numbers.len()).copy_from_slice(numbers);
    }

    /// The state before the next call is the one now.
    pub fn remember(&mut self) {
        let now = unsafe { std::slice::from_raw_parts(self.mapping.readable.cast(), self.before.len()) };
        self.before.copy_from_slice(now);
    }

    /// Whether the mapping is as it was before the call, but for the first `free` elements of the list, lent with `count`.
    pub fn unaltered_past(&self, count: usize, free: usize) -> bool {
        let bytes = |from: *const u8| unsafe { std::slice::from_raw_parts(from, self.mapping.bytes) };
        let (now, before) = (bytes(self.mapping.readable), bytes(self.before.as_ptr().cast()));
        let start = self.offset(count);
        let end = start + self.element * free;
        now[..start] == before[..start] && now[end..] == before[end..]
    }

    /// Where an address is relative to the list's start, if it is in the list's mappings or their guard regions.
    pub fn place_of(&self, address: usize) -> Option<isize> {
        [self.mapping.writable, self.mapping.readable].into_iter().find_map(|mapping| {
            let from = mapping as usize;
            let near = from - GUARD <= address && address < from + self.mapping.bytes + GUARD;
            near.then(|| address as isize - (from + self.offset(self.count)) as isize)
        })
    }
}
