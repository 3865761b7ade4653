//! A library that is loaded before the C library: it refuses the allocation of a program whose number stands in the variable
//! REFUSE, counted from 1, and all behind it where FOLLOWING is set too. It says so once on standard error.
#![no_std]

use core::ptr::null_mut;
use core::sync::atomic::{AtomicI32, Ordering::Relaxed};

unsafe extern "C" {
    fn __libc_malloc(size: usize) -> *mut u8;
    fn __libc_calloc(count: usize, size: usize) -> *mut u8;
    fn __libc_realloc(old: *mut u8, size: usize) -> *mut u8;
    fn atoi(text: *const u8) -> i32;
    fn getenv(name: *const u8) -> *const u8;
    fn write(to: i32, bytes: *const u8, count: usize) -> isize;
}

const TOLD: &[u8] = b"refused\n";

static COUNT: AtomicI32 = AtomicI32::new(0);

fn is_refused() -> bool {
    let number = COUNT.fetch_add(1, Relaxed) + 1;
    // SAFETY: all texts end with a zero byte, and so many bytes are there to be written.
    unsafe {
        let wanted = getenv(c"REFUSE".as_ptr().cast());
        if wanted.is_null() {
            return false;
        }
        let first = atoi(wanted);
        if number == first {
            write(2, TOLD.as_ptr(), TOLD.len());
        }
        number == first || number > first && !getenv(c"FOLLOWING".as_ptr().cast()).is_null()
    }
}

#[unsafe(no_mangle)]
pub extern "C" fn malloc(size: usize) -> *mut u8 {
    if is_refused() {
        return null_mut();
    }
    // SAFETY: any size will do.
    unsafe { __libc_malloc(size) }
}

#[unsafe(no_mangle)]
pub extern "C" fn calloc(count: usize, size: usize) -> *mut u8 {
    if is_refused() {
        return null_mut();
    }
    // SAFETY: any number and size will do.
    unsafe { __libc_calloc(count, size) }
}

/// # Safety
/// As of `realloc`.
#[unsafe(no_mangle)]
pub unsafe extern "C" fn realloc(old: *mut u8, size: usize) -> *mut u8 {
    if is_refused() {
        return null_mut();
    }
    // SAFETY: as the caller promises.
    unsafe { __libc_realloc(old, size) }
}

#[panic_handler]
fn panic(_: &core::panic::PanicInfo) -> ! {
    loop {}
}
