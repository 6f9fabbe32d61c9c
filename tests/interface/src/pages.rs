//! Buffers that begin and end with a page, between pages that nothing may touch: a call that reads or writes next to what it is lent ends
//! the tests. Guard bytes would not show what is only read.

use crate::rows::{handing_on, outputs_of};
use crate::table::{Table, TABLES};
use crate::trial::{fail, must};
use reference::lanes::LANES;
use reference::lent::DONE;
use std::alloc::{alloc, handle_alloc_error, Layout};
use std::ffi::{c_int, c_void};

const PAGE: usize = 4096;
/// May be read and written, and may not be touched.
const OPEN: c_int = 3;
const CLOSED: c_int = 0;

extern "C" {
    fn mprotect(at: *mut c_void, length: usize, protection: c_int) -> c_int;
}

/// A page of its own, between two that are closed.
struct Page(*mut u8);

impl Page {
    fn new() -> Self {
        let layout = Layout::from_size_align(3 * PAGE, PAGE).expect("a power of two");
        // SAFETY: the layout has a size, and the pages are never given back.
        unsafe {
            let first = alloc(layout);
            if first.is_null() {
                handle_alloc_error(layout);
            }
            let page = first.add(PAGE);
            for (at, protection) in [(first, CLOSED), (page, OPEN), (page.add(PAGE), CLOSED)] {
                if mprotect(at.cast(), PAGE, protection) != 0 {
                    fail("pages: none that nothing may touch");
                }
            }
            Page(page)
        }
    }

    /// These elements at the end of the page, or at its beginning.
    fn lend<T: Copy>(&self, elements: &[T], at_end: bool) -> *mut T {
        let bytes = size_of_val(elements);
        let place = if at_end { PAGE - bytes } else { 0 };
        // SAFETY: they fit into the page, of which nothing else is in use, and a page's end is aligned as its beginning.
        unsafe {
            let lent = self.0.add(place).cast::<T>();
            lent.copy_from_nonoverlapping(elements.as_ptr(), elements.len());
            lent
        }
    }
}

/// Ends the tests where a function answers otherwise than 02 says, order 10, or touches what it was not lent.
pub fn compare() {
    let pages = [Page::new(), Page::new()];
    for table in &TABLES {
        for at_end in [true, false] {
            cut_files_are_checked(table, &pages, at_end);
            words_are_read(table, &pages, at_end);
        }
    }
}

/// A program of 3 rows, cut to each length: it is 1 but whole. And the same with a header that says 14: from 16 bytes on it is 4.
fn cut_files_are_checked(table: &Table, [page, _]: &[Page; 2], at_end: bool) {
    let sound = handing_on(3, 3);
    let mut old = sound.clone();
    old[0] = 14;
    for length in 0..=sound.len() {
        let number = if length < sound.len() { 1 } else { DONE };
        let returned = checked(table, page.lend(&sound[..length], at_end), length);
        must(&format!("check of {length} bytes"), number, returned);
        let number = if length < 16 { 1 } else { 4 };
        let returned = checked(table, page.lend(&old[..length], at_end), length);
        must(
            &format!("check of {length} bytes, {}", old[0]),
            number,
            returned,
        );
    }
}

fn checked(table: &Table, program: *const u8, length: usize) -> u32 {
    let (mut sizes, mut count) = ([7; 4], 7);
    let [registers, inputs, outputs, rows] = sizes.each_mut();
    // SAFETY: the program has so many bytes, and the numbers live.
    unsafe {
        (table.check)(
            program, length, registers, inputs, outputs, rows, &mut count,
        )
    }
}

/// As many words as the rows take and one more or less, with room for 64 samples and for one less.
fn words_are_read(table: &Table, [from, to]: &[Page; 2], at_end: bool) {
    for rows in 1..=128 {
        let suited = outputs_of(rows).unwrap_or(0);
        for words in suited - 1..=suited + 1 {
            for room in [LANES - 1, LANES] {
                let number = match words == suited {
                    false => 3,
                    true if room < LANES => 13,
                    true => DONE,
                };
                let what = format!("of {rows} rows, {words} words, {room} lent");
                let outputs = from.lend(&vec![u64::MAX; words], at_end);
                let samples = to.lend(&vec![7u8; room], at_end);
                // SAFETY, here and below: so many words and samples are there, on two pages.
                let returned = unsafe { (table.samples)(rows, outputs, words, samples, room) };
                must(&format!("samples {what}"), number, returned);
                let samples = to.lend(&vec![7i16; room], at_end);
                let returned = unsafe {
                    (table.signed_samples)(rows, outputs, words, u64::MAX, samples, room)
                };
                must(&format!("signed_samples {what}"), number, returned);
            }
        }
    }
}
