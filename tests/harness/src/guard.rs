//! Memory between two pages that can be neither read nor written, so that any access outside a lent buffer stops the
//! program.
//!
//! With the bindings this is the only unsafe code of the tests. Linux on x86-64.

use std::marker::PhantomData;
use std::ptr::null_mut;
use std::sync::atomic::{AtomicU64, Ordering};

const PAGE: usize = 4_096;

const PROT_NONE: i32 = 0;
const PROT_READ: i32 = 1;
const PROT_WRITE: i32 = 2;
const MAP_PRIVATE: i32 = 2;
const MAP_ANONYMOUS: i32 = 0x20;
const SIGBUS: i32 = 7;
const SIGSEGV: i32 = 11;

extern "C" {
    fn mmap(address: *mut u8, length: usize, protection: i32, flags: i32, file: i32, offset: i64) -> *mut u8;
    fn mprotect(address: *mut u8, length: usize, protection: i32) -> i32;
    fn munmap(address: *mut u8, length: usize) -> i32;
    fn signal(number: i32, handler: usize) -> usize;
    fn write(file: i32, bytes: *const u8, length: usize) -> isize;
    fn _exit(status: i32) -> !;
}

/// The element types of lent buffers: any bits are a value.
pub trait Plain: Copy {}
impl Plain for u8 {}
impl Plain for u32 {}

/// Where a buffer lies in its memory.
#[derive(Clone, Copy)]
pub enum Against {
    /// Its first element follows the page before.
    Before,
    /// Its last element is followed by the page after.
    After,
}

/// Room for a buffer between two forbidden pages.
pub struct Guarded<T> {
    /// The first byte after the page before.
    room: *mut u8,
    bytes: usize,
    element: PhantomData<T>,
}

impl<T: Plain> Guarded<T> {
    /// Room for so many elements.
    pub fn new(elements: usize) -> Guarded<T> {
        let bytes = (elements * size_of::<T>()).next_multiple_of(PAGE).max(PAGE);
        let flags = MAP_PRIVATE | MAP_ANONYMOUS;
        // A mapping of its own, all of it forbidden, and then its inner pages allowed.
        let room = unsafe {
            let start = mmap(null_mut(), bytes + 2 * PAGE, PROT_NONE, flags, -1, 0);
            assert!(start as isize != -1, "no memory");
            start.add(PAGE)
        };
        let guarded = Guarded {
            room,
            bytes,
            element: PhantomData,
        };
        guarded.protect(PROT_READ | PROT_WRITE);
        guarded
    }

    fn protect(&self, protection: i32) {
        let done = unsafe { mprotect(self.room, self.bytes, protection) };
        assert_eq!(done, 0, "mprotect");
    }

    fn start(&self, length: usize, against: Against) -> *mut T {
        let bytes = length * size_of::<T>();
        assert!(bytes <= self.bytes, "no room for {length} elements");
        match against {
            Against::Before => self.room.cast(),
            // The room ends at a page and so at a multiple of the element's size.
            Against::After => self.room.wrapping_add(self.bytes - bytes).cast(),
        }
    }

    /// So many elements against one of the forbidden pages, with a guard on the other side at most a page away.
    pub fn lend(&mut self, length: usize, against: Against) -> &mut [T] {
        let start = self.start(length, against);
        // Within the room, aligned, and borrowed from it exclusively.
        unsafe { std::slice::from_raw_parts_mut(start, length) }
    }

    /// The elements put there and then lent for reading; a write to them stops the program.
    pub fn lend_fixed<R>(&mut self, elements: &[T], against: Against, read: impl FnOnce(&[T]) -> R) -> R {
        self.lend(elements.len(), against).copy_from_slice(elements);
        self.protect(PROT_READ);
        let start = self.start(elements.len(), against);
        let given = read(unsafe { std::slice::from_raw_parts(start, elements.len()) });
        self.protect(PROT_READ | PROT_WRITE);
        given
    }
}

impl<T> Drop for Guarded<T> {
    fn drop(&mut self) {
        unsafe { munmap(self.room.sub(PAGE), self.bytes + 2 * PAGE) };
    }
}

/// The seeds at work, one for each thread, for the report of a forbidden access.
pub static AT_WORK: [AtomicU64; 8] = [const { AtomicU64::new(0) }; 8];

/// From now on a forbidden access reports the seeds at work and ends the program.
pub fn report_forbidden_access() {
    unsafe {
        signal(SIGSEGV, stop as *const () as usize);
        signal(SIGBUS, stop as *const () as usize);
    }
}

/// Says what is at work without allocating or locking anything.
extern "C" fn stop(_signal: i32) {
    say(b"\naccess outside the lent buffers (or a stack that is too deep); seeds at work:");
    for seed in &AT_WORK {
        let seed = seed.load(Ordering::Relaxed);
        if seed != 0 {
            say(b" ");
            say_number(seed);
        }
    }
    say(b"\n");
    unsafe { _exit(101) }
}

fn say(bytes: &[u8]) {
    unsafe { write(2, bytes.as_ptr(), bytes.len()) };
}

fn say_number(mut number: u64) {
    let mut digits = [0; 20];
    let mut start = digits.len();
    while number > 0 {
        start -= 1;
        digits[start] = b'0' + (number % 10) as u8;
        number /= 10;
    }
    say(&digits[start..]);
}
