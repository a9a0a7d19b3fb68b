//! A library that is loaded before a program (LD_PRELOAD) and lets its memory or its disk fail.
//!
//! `REFUSE_GROWTH=N` refuses the Nth growth of memory. `STOP_DISK=N` stops the disk: the Nth write to a
//! database file, or sync of one, fails, and so does each after it; `FAIL_WRITE=N` lets the Nth alone fail.
//! When the program ends, a line `growths=G writes=W` with the numbers that there were goes to the
//! descriptor of `TELL_COUNTS`. What is done to files goes to the descriptor of `LOG_WRITES`, a record each: its
//! kind (`W` for a write, `T` for a new length, `S` for a sync, `A` for an answer on standard output), seven
//! bytes of nothing, then the file's inode number, the place and the count of bytes, as 64-bit numbers, and the
//! bytes that are written. `SLOW_GROWTH` is the descriptor of a pipe that is not waited for: where a byte is there
//! to be read, the next growth by a mebibyte or more takes as many seconds as it says.
#![no_std]

use core::ffi::{c_char, c_int, c_void};
use core::ptr;
use core::sync::atomic::{AtomicU64, Ordering::Relaxed};

const EIO: c_int = 5;
const LARGE: usize = 1 << 20;

static GROWTHS: AtomicU64 = AtomicU64::new(0);
static REFUSED: AtomicU64 = AtomicU64::new(0);
static WRITES: AtomicU64 = AtomicU64::new(0);
static STOPPED: AtomicU64 = AtomicU64::new(u64::MAX);
static FAILED: AtomicU64 = AtomicU64::new(0);
static TELL: AtomicU64 = AtomicU64::new(0);
static LOG: AtomicU64 = AtomicU64::new(0);
static SLOW: AtomicU64 = AtomicU64::new(0);

extern "C" {
    fn __libc_malloc(size: usize) -> *mut c_void;
    fn __libc_realloc(old: *mut c_void, size: usize) -> *mut c_void;
    fn __errno_location() -> *mut c_int;
    fn getenv(name: *const c_char) -> *const c_char;
    fn syscall(number: i64, ...) -> i64;
}

#[panic_handler]
fn panic(_: &core::panic::PanicInfo) -> ! {
    loop {}
}

/// Core names it and nothing here calls it: a panic ends in the loop above.
#[no_mangle]
extern "C" fn rust_eh_personality() {}

/// The number of a variable of the environment.
unsafe fn number(name: &core::ffi::CStr) -> Option<u64> {
    let text = getenv(name.as_ptr());
    if text.is_null() {
        return None;
    }
    core::ffi::CStr::from_ptr(text).to_str().ok()?.parse().ok()
}

extern "C" fn begin() {
    unsafe {
        REFUSED.store(number(c"REFUSE_GROWTH").unwrap_or(0), Relaxed);
        STOPPED.store(number(c"STOP_DISK").unwrap_or(u64::MAX), Relaxed);
        FAILED.store(number(c"FAIL_WRITE").unwrap_or(0), Relaxed);
        TELL.store(number(c"TELL_COUNTS").unwrap_or(0), Relaxed);
        LOG.store(number(c"LOG_WRITES").unwrap_or(0), Relaxed);
        SLOW.store(number(c"SLOW_GROWTH").unwrap_or(0), Relaxed);
    }
}

/// Writes a number behind a text.
fn put(line: &mut [u8; 80], end: &mut usize, name: &[u8], mut number: u64) {
    for byte in name {
        line[*end] = *byte;
        *end += 1;
    }
    let mut digits = [0; 20];
    let mut first = digits.len();
    loop {
        first -= 1;
        digits[first] = b'0' + (number % 10) as u8;
        number /= 10;
        if number == 0 {
            break;
        }
    }
    for digit in &digits[first..] {
        line[*end] = *digit;
        *end += 1;
    }
}

extern "C" fn end() {
    let file = TELL.load(Relaxed);
    if file == 0 {
        return;
    }
    let mut line = [0; 80];
    let mut end = 0;
    put(&mut line, &mut end, b"growths=", GROWTHS.load(Relaxed));
    put(&mut line, &mut end, b" writes=", WRITES.load(Relaxed));
    line[end] = b'\n';
    unsafe { syscall(SYS_WRITE, file as c_int, line.as_ptr(), end + 1) };
}

#[used]
#[link_section = ".init_array"]
static BEGIN: extern "C" fn() = begin;

#[used]
#[link_section = ".fini_array"]
static END: extern "C" fn() = end;

/// Takes as many seconds as the pipe says, if it says any.
unsafe fn wait_if_told(size: usize) {
    let pipe = SLOW.load(Relaxed) as c_int;
    let mut seconds = 0_u8;
    if pipe != 0 && size >= LARGE && syscall(SYS_READ, pipe, &raw mut seconds, 1_usize) == 1 {
        let time = [i64::from(seconds), 0];
        syscall(SYS_NANOSLEEP, time.as_ptr(), ptr::null::<i64>());
    }
}

unsafe fn grows(size: usize) -> bool {
    wait_if_told(size);
    GROWTHS.fetch_add(1, Relaxed) + 1 != REFUSED.load(Relaxed)
}

#[no_mangle]
pub unsafe extern "C" fn malloc(size: usize) -> *mut c_void {
    if grows(size) { __libc_malloc(size) } else { ptr::null_mut() }
}

#[no_mangle]
pub unsafe extern "C" fn realloc(old: *mut c_void, size: usize) -> *mut c_void {
    if grows(size) { __libc_realloc(old, size) } else { ptr::null_mut() }
}

/// Whether the disk still writes; where not, the error is that of a broken one.
unsafe fn writes() -> bool {
    let count = WRITES.fetch_add(1, Relaxed) + 1;
    let goes = count < STOPPED.load(Relaxed) && count != FAILED.load(Relaxed);
    if !goes {
        *__errno_location() = EIO;
    }
    goes
}

/// Adds a record to the log, where one is kept.
unsafe fn note(kind: u8, file: c_int, place: i64, bytes: *const c_void, count: usize) {
    let log = LOG.load(Relaxed) as c_int;
    if log == 0 {
        return;
    }
    // the inode's number is the second of the numbers that the system tells of a file
    let mut told = [0_u64; 18];
    syscall(SYS_FSTAT, file, told.as_mut_ptr());
    let record = [u64::from(kind), told[1], place as u64, count as u64];
    syscall(SYS_WRITE, log, record.as_ptr(), 32_usize);
    if !bytes.is_null() {
        syscall(SYS_WRITE, log, bytes, count);
    }
}

const SYS_READ: i64 = 0;
const SYS_WRITE: i64 = 1;
const SYS_FSTAT: i64 = 5;
const SYS_PWRITE64: i64 = 18;
const SYS_NANOSLEEP: i64 = 35;
const SYS_FSYNC: i64 = 74;
const SYS_FDATASYNC: i64 = 75;
const SYS_FTRUNCATE: i64 = 77;

#[no_mangle]
pub unsafe extern "C" fn write(file: c_int, bytes: *const c_void, count: usize) -> isize {
    if file == 1 {
        note(b'A', file, 0, ptr::null(), count);
    }
    syscall(SYS_WRITE, file, bytes, count) as isize
}

#[no_mangle]
pub unsafe extern "C" fn pwrite(file: c_int, bytes: *const c_void, count: usize, at: i64) -> isize {
    if !writes() {
        return -1;
    }
    let written = syscall(SYS_PWRITE64, file, bytes, count, at) as isize;
    if written > 0 {
        note(b'W', file, at, bytes, written as usize);
    }
    written
}

#[no_mangle]
pub unsafe extern "C" fn pwrite64(file: c_int, bytes: *const c_void, count: usize, at: i64) -> isize {
    pwrite(file, bytes, count, at)
}

/// Whether the disk still does so, which is then noted.
unsafe fn goes(kind: u8, file: c_int, place: i64) -> bool {
    let goes = writes();
    if goes {
        note(kind, file, place, ptr::null(), 0);
    }
    goes
}

#[no_mangle]
pub unsafe extern "C" fn fsync(file: c_int) -> c_int {
    if goes(b'S', file, 0) { syscall(SYS_FSYNC, file) as c_int } else { -1 }
}

#[no_mangle]
pub unsafe extern "C" fn fdatasync(file: c_int) -> c_int {
    if goes(b'S', file, 0) { syscall(SYS_FDATASYNC, file) as c_int } else { -1 }
}

#[no_mangle]
pub unsafe extern "C" fn ftruncate(file: c_int, length: i64) -> c_int {
    if goes(b'T', file, length) { syscall(SYS_FTRUNCATE, file, length) as c_int } else { -1 }
}

#[no_mangle]
pub unsafe extern "C" fn ftruncate64(file: c_int, length: i64) -> c_int {
    ftruncate(file, length)
}
