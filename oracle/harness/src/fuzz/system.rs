//! What needs `unsafe`: pages that may not be touched, a word before the end on a crash, and
//! memcheck's view of bytes.

#![allow(unsafe_code)]

use std::cell::Cell;
use std::ffi::{c_int, c_long, c_void};
use std::io::Write;
use std::sync::atomic::{AtomicU64, Ordering};
use std::{ptr, slice};

/// As long as the longest page of any machine in use, or a multiple of it.
const PAGE: usize = 1 << 16;

// The numbers are Linux's.
const PROT_NONE: c_int = 0;
const PROT_READ_WRITE: c_int = 3;
const MAP_PRIVATE_ANONYMOUS: c_int = 0x22;
/// SIGBUS and SIGSEGV.
const CRASHES: [c_int; 2] = [7, 11];

extern "C" {
    fn mmap(
        at: *mut c_void,
        len: usize,
        prot: c_int,
        flags: c_int,
        fd: c_int,
        from: c_long,
    ) -> *mut c_void;
    fn mprotect(at: *mut c_void, len: usize, prot: c_int) -> c_int;
    fn signal(signal: c_int, handler: usize) -> usize;
    fn write(fd: c_int, bytes: *const u8, len: usize) -> isize;
}

/// At least so many entries with a page before and a page after them that may not be touched. They
/// are never given back: a thread has five of them.
#[must_use]
pub fn between_closed_pages<T: Copy + Default>(least: usize) -> &'static mut [T] {
    let len = (least * size_of::<T>()).next_multiple_of(PAGE);
    // SAFETY: new memory, of which the middle is opened for reading and writing, is filled with
    // entries, and is used by nobody else.
    unsafe {
        let whole = len + 2 * PAGE;
        let at = mmap(ptr::null_mut(), whole, PROT_NONE, MAP_PRIVATE_ANONYMOUS, -1, 0);
        assert!(at as isize != -1, "no memory");
        let middle = at.cast::<u8>().add(PAGE);
        assert_eq!(mprotect(middle.cast(), len, PROT_READ_WRITE), 0, "no memory");
        let (first, entries) = (middle.cast::<T>(), len / size_of::<T>());
        (0..entries).for_each(|entry| first.add(entry).write(T::default()));
        slice::from_raw_parts_mut(first, entries)
    }
}

static SEED: AtomicU64 = AtomicU64::new(0);

thread_local! {
    static PLACE: Cell<u64> = const { Cell::new(0) };
}

/// The place that is named if this thread crashes.
pub fn at_place(place: u64) {
    PLACE.set(place);
}

/// Has a crash say how to repeat it, before it ends the program as it would have.
pub fn tell_of_crashes(seed: u64) {
    SEED.store(seed, Ordering::Relaxed);
    for number in CRASHES {
        // SAFETY: the handler only formats two numbers on its own stack and writes them.
        unsafe { signal(number, crashed as *const () as usize) };
    }
}

extern "C" fn crashed(number: c_int) {
    const STDERR: c_int = 2;
    const SIG_DFL: usize = 0;
    let mut text = [0; 160];
    let mut rest = &mut text[..];
    let (seed, place) = (SEED.load(Ordering::Relaxed), PLACE.get());
    let _ = writeln!(
        rest,
        "fuzz: a byte outside was touched; again: oracle/fuzz --seed {seed} --place {place}"
    );
    let len = 160 - rest.len();
    // SAFETY: the bytes are this function's; what then faults again does so unhandled.
    unsafe {
        write(STDERR, text.as_ptr(), len);
        signal(number, SIG_DFL);
    }
}

/// Memcheck's view of bytes. Without valgrind, marks do nothing.
#[derive(Clone, Copy, PartialEq, Eq)]
pub enum Mark {
    NoAccess = 0x4d43_0000,
    Undefined = 0x4d43_0001,
    Defined = 0x4d43_0002,
}

pub fn mark<T>(slice: &mut [T], mark: Mark) {
    request(mark as usize, slice.as_mut_ptr() as usize, size_of_val(slice));
}

#[must_use]
pub fn on_valgrind() -> bool {
    request(0x1001, 0, 0) != 0
}

/// How many errors valgrind has reported.
#[must_use]
pub fn valgrind_errors() -> usize {
    request(0x1201, 0, 0)
}

/// A request to valgrind as its header valgrind.h makes it: instructions that do nothing elsewhere.
#[cfg(target_arch = "x86_64")]
fn request(number: usize, first: usize, second: usize) -> usize {
    let arguments = [number, first, second, 0, 0, 0];
    let mut result: usize = 0;
    // SAFETY: the rotations add up to nothing, and an exchange of a register with itself is none.
    unsafe {
        std::arch::asm!(
            "rol rdi, 3", "rol rdi, 13", "rol rdi, 61", "rol rdi, 51", "xchg rbx, rbx",
            in("rax") arguments.as_ptr(), inout("rdx") result,
        );
    }
    result
}

#[cfg(not(target_arch = "x86_64"))]
fn request(_: usize, _: usize, _: usize) -> usize {
    0
}
