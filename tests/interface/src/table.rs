//! The two ways to the engine: from C through the header, by calls.c, and by the declarations of the Rust binding.

use crate::corkhollow::{raw, Signer};

/// Makes the table of both ways from one signature for each operation.
macro_rules! tables {
    ($($operation:ident: $through:ident, $raw:ident ($($parameter:ty),*);)*) => {
        /// One function for each operation.
        pub struct Table {
            pub way: &'static str,
            $(pub $operation: unsafe extern "C" fn($($parameter),*) -> u32,)*
        }

        extern "C" {
            $(fn $through($(_: $parameter),*) -> u32;)*
        }

        pub static TABLES: [Table; 2] = [
            Table { way: "calls.c", $($operation: $through,)* },
            Table { way: "corkhollow.rs", $($operation: raw::$raw,)* },
        ];
    };
}

tables! {
    read: through_read, corkhollow_read
        (*const u8, usize, *mut u8, usize, *mut usize, *mut usize);
    write: through_write, corkhollow_write
        (usize, usize, *const u8, usize, *mut u8, usize, *mut usize);
    build: through_build, corkhollow_build
        (*const u32, usize, usize, bool, *mut u8, usize, *mut usize);
    walk: through_walk, corkhollow_walk
        (*const u8, usize, *const u8, usize, *mut usize, *mut usize);
    spent: through_spent, corkhollow_spent
        (*const u8, usize, *const u8, usize, *mut usize);
    string_for: through_string_for, corkhollow_string_for
        (*const u8, usize, usize, *mut u8, usize, *mut bool);
    compile: through_compile, corkhollow_compile
        (*const u8, usize, *mut u8, usize, *mut usize);
    check: through_check, corkhollow_check
        (*const u8, usize, *mut usize, *mut usize, *mut usize, *mut usize, *mut u32);
    start: through_start, corkhollow_start
        (*const u8, usize, *const u64, usize, *mut u64, usize, *mut u64, usize,
         u32, *mut u32, *mut u32, *mut bool);
    resume: through_resume, corkhollow_resume
        (*const u8, usize, *const u64, usize, *mut u64, usize, *mut u64, usize,
         u32, u32, *mut u32, *mut u32, *mut bool);
    slice: through_slice, corkhollow_slice
        (usize, *const u8, usize, *mut u64, usize);
    samples: through_samples, corkhollow_samples
        (usize, *const u64, usize, *mut u8, usize);
    signed_samples: through_signed_samples, corkhollow_signed_samples
        (usize, *const u64, usize, u64, *mut i16, usize);
    draw: through_draw, corkhollow_draw
        (*const u8, usize, *const u8, usize, *mut u8, usize);
    draw_signed: through_draw_signed, corkhollow_draw_signed
        (*const u8, usize, *const u8, usize, u64, *mut i16, usize);
    combine: through_combine, corkhollow_combine
        (*const i16, usize, *const i16, usize, *const i16, usize, *const i16, usize,
         u32, u32, *mut i32, usize);
    import: through_import, corkhollow_import
        (*const u64, usize, usize, *mut u8, usize, *mut usize);
    export: through_export, corkhollow_export
        (*const u8, usize, *mut u64, usize, *mut usize, *mut usize);
    lookup: through_lookup, corkhollow_lookup
        (*const u64, usize, usize, u64, *mut usize);
    pool_open: through_pool_open, corkhollow_pool_open
        (usize, *mut Signer, usize);
    pool_draw: through_pool_draw, corkhollow_pool_draw
        (usize, *mut Signer, usize, usize, usize, *mut usize);
    pool_refill: through_pool_refill, corkhollow_pool_refill
        (usize, *mut Signer, usize);
}
