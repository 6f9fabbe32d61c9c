//! What is lent in one call: buffers and numbers in one block of memory, with guard bytes around each.
//!
//! The reference and the engine each get a copy of the block. So one comparison of two blocks compares all that was lent, what was only
//! read and the guard bytes included.

use reference::random::Random;
use std::marker::PhantomData;

/// The fewest guard bytes on each side.
const GUARD: usize = 64;

/// Types of which any bytes are a value, so that a buffer may begin with anything.
pub trait Element: Copy {}
impl Element for u8 {}
impl Element for i16 {}
impl Element for i32 {}
impl Element for u32 {}
impl Element for u64 {}
impl Element for usize {}

/// What a pointer is where the length is 0: it must not be followed.
#[derive(Clone, Copy)]
enum Empty {
    Inside,
    Null,
    Dangling,
}

/// Where a lent buffer, or a number, lies in the block.
#[derive(Clone, Copy)]
pub struct Lent<T> {
    at: usize,
    pub length: usize,
    empty: Empty,
    elements: PhantomData<T>,
}

impl<T> Lent<T> {
    /// What follows after so many elements of the buffer.
    pub fn after(self, elements: usize) -> Self {
        Lent {
            at: self.at + elements * size_of::<T>(),
            length: self.length - elements,
            ..self
        }
    }
}

/// A lent buffer, for reports.
struct Place {
    name: &'static str,
    at: usize,
    bytes: usize,
}

/// The block as it is before a call.
pub struct Memory {
    random: Random,
    pub block: Vec<u64>,
    end: usize,
    places: Vec<Place>,
    plain: Vec<(&'static str, u64)>,
}

impl Memory {
    pub fn new(random: &mut Random) -> Self {
        Memory {
            random: Random::new(random.word()),
            block: Vec::new(),
            end: 0,
            places: Vec::new(),
            plain: Vec::new(),
        }
    }

    /// Notes a number that is given, not lent, for a report.
    pub fn note(&mut self, name: &'static str, value: u64) {
        self.plain.push((name, value));
    }

    /// A buffer with any contents. It has the alignment of its type and, but by chance, no more.
    pub fn room<T: Element>(&mut self, name: &'static str, length: usize) -> Lent<T> {
        self.place(name, length)
    }

    /// A buffer with these contents.
    pub fn lend<T: Copy>(&mut self, name: &'static str, contents: &[T]) -> Lent<T> {
        let lent = self.place(name, contents.len());
        let view = View::of(&mut self.block);
        // SAFETY: nothing else uses the block.
        unsafe { view.slice_mut(lent) }.copy_from_slice(contents);
        lent
    }

    /// A number for an answer, with any old value.
    pub fn number<T: Element>(&mut self, name: &'static str) -> Lent<T> {
        self.place(name, 1)
    }

    /// A yes or no for an answer, with any old value.
    pub fn yes_or_no(&mut self, name: &'static str) -> Lent<bool> {
        let old = self.random.bit() == 1;
        self.lend(name, &[old])
    }

    fn place<T>(&mut self, name: &'static str, length: usize) -> Lent<T> {
        let bytes = length * size_of::<T>();
        let least = self.end + GUARD + self.random.below(16);
        let at = least.next_multiple_of(align_of::<T>());
        self.end = at + bytes;
        let words = (self.end + GUARD).div_ceil(8);
        while self.block.len() < words {
            self.block.push(self.random.word());
        }
        self.places.push(Place { name, at, bytes });
        let choices = [Empty::Inside, Empty::Null, Empty::Dangling];
        Lent {
            at,
            length,
            empty: self.random.pick(&choices),
            elements: PhantomData,
        }
    }

    /// What lies at a byte of the block.
    pub fn describe(&self, byte: usize) -> String {
        let after = |place: &&Place| place.at <= byte;
        match self.places.iter().rev().find(after) {
            None => "guard bytes at the front".to_string(),
            Some(place) if byte < place.at + place.bytes => {
                format!("{}, byte {}", place.name, byte - place.at)
            }
            Some(place) => {
                let beyond = byte - place.at - place.bytes;
                format!("guard bytes after {}, byte {beyond}", place.name)
            }
        }
    }

    /// All that is given and lent, for a report; of a buffer its length and its first bytes.
    pub fn listing(&self) -> String {
        let bytes: Vec<u8> = self.block.iter().flat_map(|w| w.to_ne_bytes()).collect();
        let line = |place: &Place| {
            let shown = &bytes[place.at..place.at + place.bytes.min(256)];
            let digits: String = shown.iter().map(|byte| format!("{byte:02x}")).collect();
            format!("  {} ({} bytes): {digits}\n", place.name, place.bytes)
        };
        let plain = self.plain.iter();
        let numbers = plain.map(|(name, value)| format!("  {name}: {value}\n"));
        numbers.chain(self.places.iter().map(line)).collect()
    }
}

/// A block as a call sees it.
#[derive(Clone, Copy)]
pub struct View {
    base: *mut u8,
}

impl View {
    pub fn of(block: &mut [u64]) -> Self {
        View {
            base: block.as_mut_ptr().cast(),
        }
    }

    /// The pointer for the engine.
    pub fn pointer<T>(self, lent: Lent<T>) -> *mut T {
        match lent.empty {
            Empty::Null if lent.length == 0 => std::ptr::null_mut(),
            Empty::Dangling if lent.length == 0 => std::ptr::dangling_mut(),
            _ => self.inside(lent),
        }
    }

    fn inside<T>(self, lent: Lent<T>) -> *mut T {
        // SAFETY: every buffer lies in the block, at a multiple of its alignment.
        unsafe { self.base.add(lent.at) }.cast()
    }

    /// The buffer for the reference.
    ///
    /// # Safety
    /// The block lives, holds values of this type there, and nothing changes them in the meantime.
    pub unsafe fn slice<'a, T: Copy>(self, lent: Lent<T>) -> &'a [T] {
        std::slice::from_raw_parts(self.inside(lent), lent.length)
    }

    /// The buffer for the reference, to be changed.
    ///
    /// # Safety
    /// As for `slice`, and nothing else uses this buffer in the meantime.
    pub unsafe fn slice_mut<'a, T: Copy>(self, lent: Lent<T>) -> &'a mut [T] {
        std::slice::from_raw_parts_mut(self.inside(lent), lent.length)
    }

    /// The number for the reference, to be changed.
    ///
    /// # Safety
    /// As for `slice_mut`.
    pub unsafe fn number<'a, T>(self, lent: Lent<T>) -> &'a mut T {
        &mut *self.inside(lent)
    }
}
