//! The checks in a program without `std`: of the C library it takes what `core` and the engine ask for (memset and its like), and to end.
#![no_std]
#![no_main]

#[path = "checks.rs"]
mod checks;
#[path = "../../include/corkhollow.rs"]
mod corkhollow;

use core::ffi::{c_int, c_void};
use core::fmt::Write;
use core::panic::PanicInfo;

#[link(name = "c")]
unsafe extern "C" {
    fn write(file: c_int, bytes: *const c_void, length: usize) -> isize;
    fn abort() -> !;
}

#[panic_handler]
fn panic(_: &PanicInfo) -> ! {
    // SAFETY: it takes nothing.
    unsafe { abort() }
}

/// The built `core` names this, for unwinding, which a program that aborts never does.
#[unsafe(no_mangle)]
pub extern "C" fn rust_eh_personality() {}

/// Text of which the first bytes are kept.
struct Text {
    bytes: [u8; 64],
    length: usize,
}

impl Write for Text {
    fn write_str(&mut self, text: &str) -> core::fmt::Result {
        for &byte in text.as_bytes() {
            if self.length < self.bytes.len() {
                self.bytes[self.length] = byte;
                self.length += 1;
            }
        }
        Ok(())
    }
}

/// The words of a refusal, as an error of `core`.
fn words() -> checks::Checked {
    let mut text = Text {
        bytes: [0; 64],
        length: 0,
    };
    if let Err(why) = checks::a_refusal() {
        let why: &dyn core::error::Error = &why;
        write!(text, "{why}").map_err(|_| "the words of a refusal")?;
    }
    match text.bytes.starts_with(b"refusal 1: ") {
        true => Ok(()),
        false => Err("the words of a refusal"),
    }
}

#[unsafe(no_mangle)]
pub extern "C" fn main() -> c_int {
    match checks::all().and_then(|()| words()) {
        Ok(()) => 0,
        Err(name) => {
            // SAFETY: the bytes are those of the text.
            unsafe { write(2, name.as_ptr().cast(), name.len()) };
            1
        }
    }
}
