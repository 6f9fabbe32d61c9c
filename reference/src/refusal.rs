//! 01, "The engine's no", and 02: the numbers of the refusals.

/// What an operation comes to: its result, or the number of its refusal.
pub type Answer<T> = Result<T, u32>;

/// A file, or an instruction, shorter than it says or than any can be.
pub const SHORT: u32 = 1;
/// The first record's kind is not the one expected.
pub const KIND: u32 = 2;
/// A size, or a number that is looked up, outside its limits, outputs that do not suit the rows, a
/// row that the matrix has not, or records that no pool can have.
pub const SIZE: u32 = 3;
/// A length field that is not what the header requires, or bytes left over.
pub const LENGTH: u32 = 4;
/// A spare bit that is set, an entry that is neither 0 nor 1, or one that is no signed sample.
pub const BIT: u32 = 5;
/// T above 2^n.
pub const TOTAL: u32 = 6;
/// An instruction kind that there is not, or a length that is not its kind's.
pub const INSTRUCTION: u32 = 7;
/// An operand not below its count.
pub const OPERAND: u32 = 8;
/// A register read that no earlier instruction wrote.
pub const UNWRITTEN: u32 = 9;
/// An output that no instruction sets.
pub const UNSET: u32 = 10;
/// All weights are 0.
pub const WEIGHTLESS: u32 = 11;
/// A resume position above the count.
pub const POSITION: u32 = 12;
/// A lent buffer too short for its input or its result.
pub const BUFFER: u32 = 13;
/// A multiplier outside its range.
pub const MULTIPLIER: u32 = 14;
/// A table that is not cumulative: a first number not 0, a fall, or a last above 2^n.
pub const TABLE: u32 = 15;
/// A difference of 2^n in a cumulative table, which no row can hold.
pub const STEP: u32 = 16;
/// A signer number that the pool has not.
pub const SIGNER: u32 = 17;
/// A draw above its signer's cap.
pub const CAP: u32 = 18;
/// A draw after which fewer words would be left than the other signers lack of their reserves, or of
/// more words than are left.
pub const RESERVE: u32 = 19;

/// One check: refuses with `number` where `fault` holds.
pub fn refuse(number: u32, fault: bool) -> Answer<()> {
    if fault {
        Err(number)
    } else {
        Ok(())
    }
}
