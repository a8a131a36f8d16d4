//! What an interrupt (Ctrl-C) prints. All unsafe code of this program is here.
//!
//! A search can't be left in the middle, so the handler itself ends the process. It may come
//! between any two instructions, and so takes no memory and no lock: the bytes stand ready, and
//! `write` and `_exit` are among the calls that a handler may make. The standard library has no
//! call for signals.

use std::ffi::{c_int, c_void};
use std::ptr;
use std::sync::atomic::{AtomicPtr, Ordering};

const SIGINT: c_int = 2;
const SIG_DFL: usize = 0;
const STANDARD_OUTPUT: c_int = 1;
const STANDARD_ERROR: c_int = 2;
/// What a shell says of a program that an interrupt ended.
const INTERRUPTED: c_int = 130;

extern "C" {
    fn signal(number: c_int, handler: usize) -> usize;
    fn write(file: c_int, bytes: *const c_void, count: usize) -> isize;
    fn _exit(status: c_int) -> !;
}

/// What an interrupt writes.
pub struct LastWords {
    /// To standard error, before the answer.
    pub notice: &'static str,
    /// To standard output.
    pub answer: String,
}

static LAST: AtomicPtr<LastWords> = AtomicPtr::new(ptr::null_mut());

/// From now on an interrupt writes these words and ends the process with 130.
///
/// Earlier words are never freed, since the handler may be reading them.
pub fn keep(words: LastWords) {
    LAST.store(Box::into_raw(Box::new(words)), Ordering::Release);
    let handler: extern "C" fn(c_int) = end;
    // SAFETY: the handler has the type that `signal` asks for, and does only what a handler may.
    unsafe { signal(SIGINT, handler as usize) };
}

/// From now on an interrupt ends the process as it does any other.
pub fn release() {
    // SAFETY: the default takes no handler of ours.
    unsafe { signal(SIGINT, SIG_DFL) };
}

extern "C" fn end(_: c_int) {
    // SAFETY: the pointer is null or from `keep`, which frees and changes nothing it has stored.
    if let Some(words) = unsafe { LAST.load(Ordering::Acquire).as_ref() } {
        write_all(STANDARD_ERROR, words.notice.as_bytes());
        write_all(STANDARD_OUTPUT, words.answer.as_bytes());
    }
    // SAFETY: `_exit` takes any status.
    unsafe { _exit(INTERRUPTED) }
}

/// Writes until all is written or nothing more can be.
fn write_all(file: c_int, mut bytes: &[u8]) {
    while !bytes.is_empty() {
        // SAFETY: the pointer stands with the length of the slice it is from.
        let written = unsafe { write(file, bytes.as_ptr().cast(), bytes.len()) };
        match usize::try_from(written) {
            Ok(count) if count > 0 => bytes = bytes.get(count..).unwrap_or_default(),
            _ => return,
        }
    }
}
