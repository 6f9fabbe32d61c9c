//! The text of a vector: fields in hexadecimal, one space between any two.

use crate::pool::Signer;
use std::fmt;

/// Results of more bytes than these are given by their hash.
pub const MOST_IN_FULL: usize = 256;

/// The operations, by the number that begins a line.
#[derive(Clone, Copy, Debug, PartialEq, Eq)]
pub enum Task {
    Read = 0x1,
    Write = 0x2,
    Build = 0x3,
    Walk = 0x4,
    Compile = 0x5,
    Check = 0x6,
    Start = 0x7,
    Resume = 0x8,
    Slice = 0x9,
    Samples = 0xa,
    SignedSamples = 0xb,
    Draw = 0xc,
    DrawSigned = 0xd,
    Spent = 0xe,
    Combine = 0xf,
    Rewrite = 0x10,
    Draws = 0x11,
    Stops = 0x12,
    LongCheck = 0x13,
    LongStart = 0x14,
    Import = 0x15,
    Export = 0x16,
    Lookup = 0x17,
    StringFor = 0x18,
    PoolOpen = 0x19,
    PoolDraw = 0x1a,
    PoolRefill = 0x1b,
}

impl Task {
    /// All of them.
    pub const ALL: [Task; 27] = [
        Task::Read,
        Task::Write,
        Task::Build,
        Task::Walk,
        Task::Compile,
        Task::Check,
        Task::Start,
        Task::Resume,
        Task::Slice,
        Task::Samples,
        Task::SignedSamples,
        Task::Draw,
        Task::DrawSigned,
        Task::Spent,
        Task::Combine,
        Task::Rewrite,
        Task::Draws,
        Task::Stops,
        Task::LongCheck,
        Task::LongStart,
        Task::Import,
        Task::Export,
        Task::Lookup,
        Task::StringFor,
        Task::PoolOpen,
        Task::PoolDraw,
        Task::PoolRefill,
    ];

    /// The operation with this number.
    pub fn numbered(number: u64) -> Option<Self> {
        Task::ALL.into_iter().find(|&task| task as u64 == number)
    }

    /// The operation of a line.
    pub fn of(given: &str) -> Result<Self, Malformed> {
        let number = Fields::of(given).number()?;
        Task::numbered(number).ok_or_else(|| Malformed(format!("no operation: {number:x}")))
    }

    /// The crate of the engine whose program runs the operation's cases.
    pub fn program(self) -> &'static str {
        match self {
            Task::Read | Task::Write | Task::Build | Task::Walk => "vectors_matrices",
            Task::Compile | Task::Spent | Task::Rewrite | Task::StringFor => "vectors_matrices",
            Task::Check | Task::Start | Task::Resume => "vectors_runs",
            Task::Stops | Task::LongCheck | Task::LongStart => "vectors_runs",
            Task::Slice | Task::Samples | Task::SignedSamples => "vectors_lanes",
            Task::Draw | Task::DrawSigned | Task::Draws | Task::Combine => "vectors_lanes",
            Task::Import | Task::Export | Task::Lookup => "vectors_tables",
            Task::PoolOpen | Task::PoolDraw | Task::PoolRefill => "vectors_pool",
        }
    }
}

/// A number in an array of a line: how many digits it has, and its bytes for the hash.
pub trait Element: Copy {
    /// Its digits, two a byte.
    fn digits(self) -> String;
    /// Its bytes, lowest first.
    fn bytes(self) -> Vec<u8>;
}

impl Element for u8 {
    fn digits(self) -> String {
        format!("{self:02x}")
    }
    fn bytes(self) -> Vec<u8> {
        vec![self]
    }
}

impl Element for i16 {
    fn digits(self) -> String {
        format!("{self:04x}")
    }
    fn bytes(self) -> Vec<u8> {
        self.to_le_bytes().to_vec()
    }
}

impl Element for u32 {
    fn digits(self) -> String {
        format!("{self:08x}")
    }
    fn bytes(self) -> Vec<u8> {
        self.to_le_bytes().to_vec()
    }
}

impl Element for i32 {
    fn digits(self) -> String {
        format!("{self:08x}")
    }
    fn bytes(self) -> Vec<u8> {
        self.to_le_bytes().to_vec()
    }
}

impl Element for u64 {
    fn digits(self) -> String {
        format!("{self:016x}")
    }
    fn bytes(self) -> Vec<u8> {
        self.to_le_bytes().to_vec()
    }
}

/// Reserve, cap and what was drawn, in this order.
impl Element for Signer {
    fn digits(self) -> String {
        [self.reserve, self.cap, self.drawn]
            .map(u32::digits)
            .concat()
    }
    fn bytes(self) -> Vec<u8> {
        [self.reserve, self.cap, self.drawn]
            .map(u32::bytes)
            .concat()
    }
}

/// The 64-bit FNV-1a hash.
#[derive(Clone, Copy, Debug)]
pub struct Hash(u64);

impl Default for Hash {
    fn default() -> Self {
        Hash(0xcbf2_9ce4_8422_2325)
    }
}

impl Hash {
    /// Takes in the bytes of some elements.
    pub fn take<T: Element>(&mut self, elements: &[T]) {
        for element in elements {
            for byte in element.bytes() {
                self.0 = (self.0 ^ u64::from(byte)).wrapping_mul(0x0000_0100_0000_01b3);
            }
        }
    }

    /// The hash of the bytes of some elements.
    pub fn of<T: Element>(elements: &[T]) -> Self {
        let mut hash = Hash::default();
        hash.take(elements);
        hash
    }

    /// The hash itself.
    pub fn value(self) -> u64 {
        self.0
    }
}

/// A line, or one side of it, that grows field by field.
#[derive(Clone, Debug, Default)]
pub struct Line {
    text: String,
}

impl fmt::Display for Line {
    fn fmt(&self, formatter: &mut fmt::Formatter) -> fmt::Result {
        formatter.write_str(&self.text)
    }
}

impl Line {
    /// A line for this operation.
    pub fn new(task: Task) -> Self {
        Line::default().number(task as u64)
    }

    /// Adds a number.
    pub fn number(self, number: u64) -> Self {
        self.field(&format!("{number:x}"))
    }

    /// Adds a size.
    pub fn size(self, size: usize) -> Self {
        self.number(size as u64)
    }

    /// Adds an array, in full.
    pub fn array<T: Element>(self, elements: &[T]) -> Self {
        if elements.is_empty() {
            return self.field("-");
        }
        let digits: String = elements.iter().map(|&element| element.digits()).collect();
        self.field(&digits)
    }

    /// Adds a result: an array in full where it is small, by its hash where not.
    pub fn result<T: Element>(self, elements: &[T]) -> Self {
        if std::mem::size_of_val(elements) <= MOST_IN_FULL {
            self.array(elements)
        } else {
            self.hash(Hash::of(elements))
        }
    }

    /// Adds a hash.
    pub fn hash(self, hash: Hash) -> Self {
        self.field(&format!("#{:016x}", hash.value()))
    }

    fn field(mut self, text: &str) -> Self {
        if !self.text.is_empty() {
            self.text.push(' ');
        }
        self.text.push_str(text);
        self
    }
}

/// Why a line can't be answered.
#[derive(Clone, Debug, PartialEq, Eq)]
pub struct Malformed(pub String);

/// The fields of a line that are not taken yet.
pub struct Fields<'a> {
    rest: std::str::Split<'a, char>,
}

impl<'a> Fields<'a> {
    /// The fields of a line.
    pub fn of(line: &'a str) -> Self {
        Fields {
            rest: line.split(' '),
        }
    }

    /// The next field as a number of at most 64 bits.
    pub fn number(&mut self) -> Result<u64, Malformed> {
        let field = self.next()?;
        u64::from_str_radix(field, 16).map_err(|_| Malformed(format!("no number: {field}")))
    }

    /// The next field as a size.
    pub fn size(&mut self) -> Result<usize, Malformed> {
        self.number().map(|number| number as usize)
    }

    /// The next field as a number of at most 32 bits.
    pub fn short_number(&mut self) -> Result<u32, Malformed> {
        let number = self.number()?;
        u32::try_from(number).map_err(|_| Malformed(format!("above 32 bits: {number:x}")))
    }

    /// The next field as bytes.
    pub fn bytes(&mut self) -> Result<Vec<u8>, Malformed> {
        self.array(2, |number| number as u8)
    }

    /// The next field as signed samples.
    pub fn signed_samples(&mut self) -> Result<Vec<i16>, Malformed> {
        self.array(4, |number| number as i16)
    }

    /// The next field as numbers of 32 bits.
    pub fn short_numbers(&mut self) -> Result<Vec<u32>, Malformed> {
        self.array(8, |number| number as u32)
    }

    /// The next field as words.
    pub fn words(&mut self) -> Result<Vec<u64>, Malformed> {
        self.array(16, |number| number)
    }

    /// The next field as records of signers, of three numbers each.
    pub fn signers(&mut self) -> Result<Vec<Signer>, Malformed> {
        let numbers = self.short_numbers()?;
        let records = numbers.chunks(3).map(|record| match *record {
            [reserve, cap, drawn] => Ok(Signer {
                reserve,
                cap,
                drawn,
            }),
            _ => Err(Malformed("a record that is cut".to_string())),
        });
        records.collect()
    }

    /// Nothing must be left.
    pub fn end(&mut self) -> Result<(), Malformed> {
        match self.rest.next() {
            None => Ok(()),
            Some(field) => Err(Malformed(format!("one field too many: {field}"))),
        }
    }

    fn array<T>(&mut self, digits: usize, element: impl Fn(u64) -> T) -> Result<Vec<T>, Malformed> {
        let field = self.next()?;
        if field == "-" {
            return Ok(Vec::new());
        }
        let fault = || Malformed(format!("no array: {field}"));
        if field.len() % digits != 0 || !field.is_ascii() {
            return Err(fault());
        }
        let starts = (0..field.len()).step_by(digits);
        starts
            .map(|at| u64::from_str_radix(&field[at..at + digits], 16).map(&element))
            .collect::<Result<Vec<T>, _>>()
            .map_err(|_| fault())
    }

    fn next(&mut self) -> Result<&'a str, Malformed> {
        let field = self.rest.next();
        field.ok_or_else(|| Malformed("a field is missing".to_string()))
    }
}

#[cfg(test)]
mod tests {
    use super::{Fields, Hash, Line, Signer, Task};

    #[test]
    fn hashes_as_published() {
        assert_eq!(Hash::default().value(), 0xcbf2_9ce4_8422_2325);
        assert_eq!(Hash::of(b"a").value(), 0xaf63_dc4c_8601_ec8c);
        assert_eq!(Hash::of(b"foobar").value(), 0x8594_4171_f739_67e8);
    }

    /// The way of README: halves of 32 bits, with no product or sum above 64 bits.
    #[test]
    fn hashes_in_halves() {
        let bytes: Vec<u8> = (0..=255).chain(0..99).collect();
        let (mut high, mut low) = (0xcbf2_9ce4u64, 0x8422_2325u64);
        for &byte in &bytes {
            low ^= u64::from(byte);
            let product = low * 435;
            high = (high * 435 + low * 256 + product / 4_294_967_296) % 4_294_967_296;
            low = product % 4_294_967_296;
        }
        assert_eq!(Hash::of(&bytes).value(), high * 4_294_967_296 + low);
    }

    #[test]
    fn reads_what_it_writes() {
        let words = [1u64, u64::MAX, 1 << 63];
        let line = Line::new(Task::Slice)
            .number(255)
            .array(&words)
            .array::<u8>(&[]);
        let line = line.array(&[0u8, 255]).array(&[7u32]);
        let (reserve, cap, drawn) = (1, u32::MAX, 0xabc);
        let signers = [
            Signer {
                reserve,
                cap,
                drawn,
            },
            Signer::default(),
        ];
        let line = line.array(&signers).array::<Signer>(&[]);
        let text = line.array(&[-1i16, 32_767, -32_768]).to_string();
        assert!(text.starts_with("9 ff 0000000000000001ffffffffffffffff8000000000000000 - 00ff "));
        let mut fields = Fields::of(&text);
        assert_eq!(fields.number(), Ok(Task::Slice as u64));
        assert_eq!(fields.number(), Ok(255));
        assert_eq!(fields.words(), Ok(words.to_vec()));
        assert_eq!(fields.bytes(), Ok(vec![]));
        assert_eq!(fields.bytes(), Ok(vec![0, 255]));
        assert_eq!(fields.short_numbers(), Ok(vec![7]));
        assert_eq!(fields.signers(), Ok(signers.to_vec()));
        assert_eq!(fields.signers(), Ok(vec![]));
        assert_eq!(fields.signed_samples(), Ok(vec![-1, 32_767, -32_768]));
        assert_eq!(fields.end(), Ok(()));
    }

    #[test]
    fn long_results_are_hashed() {
        assert_eq!(Line::default().result(&[0i16, -1]).to_string(), "0000ffff");
        let combined = Line::default().result(&[-2i32, i32::MAX]);
        assert_eq!(combined.to_string(), "fffffffe7fffffff");
        assert_eq!(Line::default().result(&[0u8; 256]).to_string().len(), 512);
        assert_eq!(Line::default().result(&[0u8; 257]).to_string().len(), 17);
        assert_eq!(Line::default().result(&[0u64; 33]).to_string().len(), 17);
    }
}
