//! 01, "Files": record fields of 16 bits, and bits packed with the first in the highest bit of the
//! first byte. 02, order 3: the kind of a file's first record.

use crate::refusal::{refuse, Answer, KIND, SHORT};

/// The 16-bit little-endian field at byte `at`.
pub fn field(bytes: &[u8], at: usize) -> usize {
    usize::from(u16::from_le_bytes([bytes[at], bytes[at + 1]]))
}

/// Appends a 16-bit little-endian field. Every caller's value fits.
pub fn put(bytes: &mut Vec<u8>, value: usize) {
    let value = u16::try_from(value).expect("a field has 16 bits");
    bytes.extend_from_slice(&value.to_le_bytes());
}

/// The kind of a file's first record, which a file under four bytes does not tell.
fn first_kind(file: &[u8]) -> Option<usize> {
    file.get(2..4).map(|kind| field(kind, 0))
}

/// 02, order 3: what a file of either sort is tried for before all else. 1 where it does not tell
/// its kind, then 2 where that is not the one expected.
pub fn expect_kind(file: &[u8], expected: usize) -> Answer<()> {
    let kind = first_kind(file).ok_or(SHORT)?;
    refuse(KIND, kind != expected)
}

/// ceil(n / 8): the bytes that `bits` packed bits take.
pub fn packed_length(bits: usize) -> usize {
    bits.div_ceil(8)
}

/// The packed bits as bytes of 0 or 1, the first `bits` of them.
pub fn unpack(packed: &[u8], bits: usize) -> Vec<u8> {
    (0..bits)
        .map(|i| packed[i / 8] >> (7 - i % 8) & 1)
        .collect()
}

/// Bytes of 0 or 1 as packed bits, spare low bits 0.
pub fn pack(bits: &[u8]) -> Vec<u8> {
    let mut packed = vec![0; packed_length(bits.len())];
    for (i, &bit) in bits.iter().enumerate() {
        packed[i / 8] |= bit << (7 - i % 8);
    }
    packed
}

/// Whether one of the low bits of the last byte that `bits` bits leave over is set.
pub fn has_spare_bit(packed: &[u8], bits: usize) -> bool {
    let spare = packed_length(bits) * 8 - bits;
    packed[packed_length(bits) - 1] & ((1u8 << spare) - 1) != 0
}
