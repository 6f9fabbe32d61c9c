//! A stack of its own for one call, painted before: from the paint that is left one sees how deep the call went.

use crate::trial::fail;
use std::alloc::{alloc, handle_alloc_error, Layout};
use std::arch::asm;
use std::ffi::{c_int, c_void};
use std::hint::black_box;

/// The header says that no call takes so many bytes or more.
pub const LIMIT: usize = 12 * 1024;

/// The bytes that are painted, well over the limit. Below them lie as many that nothing may touch: what goes deeper ends the tests.
const BYTES: usize = 32 * 1024;
const WORDS: usize = BYTES / 8;
/// The paint is looked at in pieces of so many words first.
const PIECE: usize = 32;
const PAGE: usize = 4096;

extern "C" {
    fn mprotect(at: *mut c_void, length: usize, protection: c_int) -> c_int;
}

pub struct Stack {
    /// The lowest word that may be touched.
    lowest: *mut u64,
    paint: u64,
    /// How deep the way to a call goes by itself.
    way: usize,
}

impl Stack {
    pub fn new() -> Self {
        let layout = Layout::from_size_align(2 * BYTES, PAGE).expect("a power of two");
        // SAFETY: the layout has a size, and the pages are this stack's own. They are never given back.
        let lowest = unsafe {
            let guard = alloc(layout);
            if guard.is_null() {
                handle_alloc_error(layout);
            }
            if mprotect(guard.cast(), BYTES, 0) != 0 {
                fail("stack: no pages that nothing may touch");
            }
            guard.add(BYTES).cast()
        };
        let mut stack = Stack {
            lowest,
            paint: 0x5a5a_5a5a_5a5a_5a5a,
            way: 0,
        };
        stack.way = stack.deepest(|| ());
        stack.see_known_depths();
        stack
    }

    /// Makes a call on this stack, and tells how many bytes of it the call took.
    pub fn depth(&mut self, call: impl FnMut()) -> usize {
        self.deepest(call).saturating_sub(self.way)
    }

    /// The bytes from the top of the stack down to the lowest one that is not as it was painted.
    ///
    /// A byte may be written with the paint's own value. So the next call finds every bit of the paint turned over.
    fn deepest<F: FnMut()>(&mut self, mut call: F) -> usize {
        self.paint = !self.paint;
        self.words().fill(self.paint);
        // SAFETY: the highest word's end is a multiple of 16, and the closure lives until it returns.
        unsafe { on_stack(self.lowest.add(WORDS), enter::<F>, (&raw mut call).cast()) };
        let (words, clean) = (self.words(), [self.paint; PIECE]);
        let piece = words.chunks(PIECE).position(|piece| piece != clean);
        let from = piece.map_or(WORDS, |piece| piece * PIECE);
        let touched = words[from..].iter().position(|&word| word != self.paint);
        let Some(word) = touched.map(|i| from + i) else {
            fail("stack: a call leaves no trace");
        };
        let first = (words[word] ^ self.paint).trailing_zeros() as usize / 8;
        BYTES - word * 8 - first
    }

    /// The painted words, which nothing else uses between calls.
    fn words(&mut self) -> &'static mut [u64] {
        // SAFETY: they were allocated in `new` and are never given back.
        unsafe { std::slice::from_raw_parts_mut(self.lowest, WORDS) }
    }

    /// What takes nothing is seen to take nothing, and what takes some bytes to take these and little more.
    fn see_known_depths(&mut self) {
        let nothing = self.depth(|| ());
        let half = self.depth(|| _ = black_box([1u8; LIMIT / 2]));
        let more = self.depth(|| _ = black_box([1u8; LIMIT + 1]));
        if nothing != 0 || half < LIMIT / 2 || half > LIMIT / 2 + 256 || more <= LIMIT {
            fail(&format!(
                "stack: 0, {} and {} bytes are seen as {nothing}, {half} and {more}",
                LIMIT / 2,
                LIMIT + 1
            ));
        }
    }
}

extern "C" fn enter<F: FnMut()>(call: *mut c_void) {
    // SAFETY: `deepest` hands over its closure.
    unsafe { (*call.cast::<F>())() }
}

/// Calls a function with the stack pointer at `top`.
///
/// # Safety
/// `top` is the end of memory for a stack, a multiple of 16, and `call` is what the function takes.
unsafe fn on_stack(top: *mut u64, function: extern "C" fn(*mut c_void), call: *mut c_void) {
    asm!(
        "xchg rsp, r12", // which a function leaves as it finds it
        "call {function}",
        "mov rsp, r12",
        function = in(reg) function,
        in("rdi") call,
        inout("r12") top => _,
        clobber_abi("C"),
    );
}
