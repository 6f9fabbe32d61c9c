//! Natural numbers of any size, for T, for distances and for quotients.

use std::cmp::Ordering;

/// A natural number, 64 bits a limb, the lowest first, no zero limb at the top.
#[derive(Clone, Debug, Default, PartialEq, Eq, Hash)]
pub struct Natural {
    limbs: Vec<u64>,
}

impl From<u64> for Natural {
    fn from(value: u64) -> Self {
        Natural { limbs: vec![value] }.trimmed()
    }
}

impl Ord for Natural {
    fn cmp(&self, other: &Self) -> Ordering {
        let by_length = self.limbs.len().cmp(&other.limbs.len());
        by_length.then_with(|| self.limbs.iter().rev().cmp(other.limbs.iter().rev()))
    }
}

impl PartialOrd for Natural {
    fn partial_cmp(&self, other: &Self) -> Option<Ordering> {
        Some(self.cmp(other))
    }
}

impl Natural {
    /// 0.
    pub fn zero() -> Self {
        Natural::default()
    }

    /// 2^exponent.
    pub fn power_of_two(exponent: usize) -> Self {
        Natural::from(1).shifted_up(exponent)
    }

    /// The number that bytes of 0 or 1 spell, the highest first.
    pub fn from_bits(bits: &[u8]) -> Self {
        let mut limbs = vec![0u64; bits.len().div_ceil(64)];
        for (i, &bit) in bits.iter().rev().enumerate() {
            limbs[i / 64] |= u64::from(bit) << (i % 64);
        }
        Natural { limbs }.trimmed()
    }

    /// The number that a text of decimal digits spells.
    pub fn from_decimal(digits: &str) -> Self {
        let ten = Natural::from(10);
        digits.bytes().fold(Natural::zero(), |number, digit| {
            number
                .times(&ten)
                .plus(&Natural::from(u64::from(digit - b'0')))
        })
    }

    /// The number that a text of hexadecimal digits spells.
    pub fn from_hexadecimal(digits: &str) -> Self {
        digits.chars().fold(Natural::zero(), |number, digit| {
            let digit = digit.to_digit(16).expect("a hexadecimal digit");
            number.shifted_up(4).plus(&Natural::from(u64::from(digit)))
        })
    }

    /// The lowest `width` bits as bytes of 0 or 1, the highest first.
    pub fn bits(&self, width: usize) -> Vec<u8> {
        (0..width).rev().map(|i| u8::from(self.bit(i))).collect()
    }

    /// Bit i, the lowest being bit 0.
    pub fn bit(&self, i: usize) -> bool {
        self.limbs
            .get(i / 64)
            .is_some_and(|limb| limb >> (i % 64) & 1 == 1)
    }

    /// How many bits it takes to write the number; none for 0.
    pub fn width(&self) -> usize {
        match self.limbs.last() {
            None => 0,
            Some(top) => self.limbs.len() * 64 - top.leading_zeros() as usize,
        }
    }

    /// The number itself, where it has at most 64 bits.
    pub fn word(&self) -> Option<u64> {
        (self.limbs.len() <= 1).then(|| self.limb(0))
    }

    /// Whether the number is 0.
    pub fn is_zero(&self) -> bool {
        self.limbs.is_empty()
    }

    /// The sum.
    pub fn plus(&self, other: &Self) -> Self {
        let mut sum = Vec::with_capacity(self.limbs.len().max(other.limbs.len()) + 1);
        let mut carry = 0u128;
        for i in 0..self.limbs.len().max(other.limbs.len()) {
            carry += u128::from(self.limb(i)) + u128::from(other.limb(i));
            sum.push(carry as u64);
            carry >>= 64;
        }
        sum.push(carry as u64);
        Natural { limbs: sum }.trimmed()
    }

    /// The difference; `other` is at most the number itself.
    pub fn minus(&self, other: &Self) -> Self {
        let mut difference = Vec::with_capacity(self.limbs.len());
        let mut borrow = false;
        for i in 0..self.limbs.len().max(other.limbs.len()) {
            let (less, under) = self.limb(i).overflowing_sub(other.limb(i));
            let (less, again) = less.overflowing_sub(u64::from(borrow));
            difference.push(less);
            borrow = under || again;
        }
        assert!(!borrow, "a difference of natural numbers is natural");
        Natural { limbs: difference }.trimmed()
    }

    /// The product.
    pub fn times(&self, other: &Self) -> Self {
        let mut product = vec![0u64; self.limbs.len() + other.limbs.len()];
        for (i, &a) in self.limbs.iter().enumerate() {
            let mut carry = 0u128;
            for (j, &b) in other.limbs.iter().enumerate() {
                carry += u128::from(product[i + j]) + u128::from(a) * u128::from(b);
                product[i + j] = carry as u64;
                carry >>= 64;
            }
            product[i + other.limbs.len()] = carry as u64;
        }
        Natural { limbs: product }.trimmed()
    }

    /// The number times 2^places.
    pub fn shifted_up(&self, places: usize) -> Self {
        let mut limbs = vec![0u64; places / 64];
        let mut carry = 0u128;
        for &limb in &self.limbs {
            carry |= u128::from(limb) << (places % 64);
            limbs.push(carry as u64);
            carry >>= 64;
        }
        limbs.push(carry as u64);
        Natural { limbs }.trimmed()
    }

    /// The number divided by 2^places, without the remainder.
    pub fn shifted_down(&self, places: usize) -> Self {
        let whole = places / 64;
        let limbs = (whole..self.limbs.len())
            .map(|i| {
                let pair = u128::from(self.limb(i)) | u128::from(self.limb(i + 1)) << 64;
                (pair >> (places % 64)) as u64
            })
            .collect();
        Natural { limbs }.trimmed()
    }

    /// Quotient and remainder by a divisor of one limb, limb by limb.
    pub fn divided_by_limb(&self, divisor: u64) -> (Self, u64) {
        let mut quotient = vec![0u64; self.limbs.len()];
        let mut rest = 0u128;
        for i in (0..self.limbs.len()).rev() {
            rest = rest << 64 | u128::from(self.limbs[i]);
            quotient[i] = (rest / u128::from(divisor)) as u64;
            rest %= u128::from(divisor);
        }
        (Natural { limbs: quotient }.trimmed(), rest as u64)
    }

    /// The largest q with q × divisor not above the number, tried bit by bit from the highest that
    /// could be set.
    pub fn divided_by(&self, divisor: &Self) -> Self {
        assert!(!divisor.is_zero(), "a divisor is above 0");
        let mut quotient = Natural::zero();
        for i in (0..(self.width() + 1).saturating_sub(divisor.width())).rev() {
            let larger = quotient.plus(&Natural::power_of_two(i));
            if larger.times(divisor) <= *self {
                quotient = larger;
            }
        }
        quotient
    }

    /// Makes the number 2 × itself + bit.
    pub fn double_and_add(&mut self, bit: u8) {
        let mut carry = u64::from(bit);
        for limb in &mut self.limbs {
            let top = *limb >> 63;
            *limb = *limb << 1 | carry;
            carry = top;
        }
        if carry != 0 {
            self.limbs.push(carry);
        }
    }

    /// Makes the number, which is above 0, smaller by 1.
    pub fn decrease(&mut self) {
        for limb in &mut self.limbs {
            let (less, under) = limb.overflowing_sub(1);
            *limb = less;
            if !under {
                break;
            }
        }
        if self.limbs.last() == Some(&0) {
            self.limbs.pop();
        }
    }

    fn limb(&self, i: usize) -> u64 {
        self.limbs.get(i).copied().unwrap_or(0)
    }

    fn trimmed(mut self) -> Self {
        while self.limbs.last() == Some(&0) {
            self.limbs.pop();
        }
        self
    }
}

#[cfg(test)]
mod tests {
    use super::Natural;
    use crate::random::Random;

    fn natural(value: u128) -> Natural {
        Natural::from((value >> 64) as u64)
            .shifted_up(64)
            .plus(&Natural::from(value as u64))
    }

    /// Numbers of every width, many of them with long runs of zeros or ones.
    fn number(random: &mut Random) -> u128 {
        let word = u128::from(random.word()) << 64 | u128::from(random.word());
        let shifted = word >> random.below(128);
        match random.below(4) {
            0 => !0 >> random.below(128),
            1 => 1 << random.below(128),
            _ => shifted,
        }
    }

    #[test]
    fn agrees_with_numbers_of_128_bits() {
        let mut random = Random::new(1);
        for _ in 0..20_000 {
            let (a, b) = (number(&mut random), number(&mut random));
            let (x, y) = (natural(a), natural(b));
            assert_eq!(x.cmp(&y), a.cmp(&b));
            assert_eq!(x.width(), (128 - a.leading_zeros()) as usize);
            assert_eq!(Natural::from_bits(&x.bits(128)), x);
            assert_eq!(x.word(), u64::try_from(a).ok());
            if let Some(sum) = a.checked_add(b) {
                assert_eq!(x.plus(&y), natural(sum));
            }
            if let Some(difference) = a.checked_sub(b) {
                assert_eq!(x.minus(&y), natural(difference));
            }
            if let Some(product) = a.checked_mul(b) {
                assert_eq!(x.times(&y), natural(product));
            }
            let places = random.below(128);
            assert_eq!(x.shifted_down(places), natural(a >> places));
            assert_eq!(x.shifted_up(places).shifted_down(places), x);
        }
    }

    #[test]
    fn divides() {
        let mut random = Random::new(2);
        for _ in 0..2_000 {
            let (a, b) = (number(&mut random), number(&mut random).max(1));
            assert_eq!(natural(a).divided_by(&natural(b)), natural(a / b));
            let limb = (b as u64).max(1);
            let (quotient, rest) = natural(a).divided_by_limb(limb);
            assert_eq!(quotient, natural(a / u128::from(limb)));
            assert_eq!(u128::from(rest), a % u128::from(limb));
            let wide = natural(a)
                .times(&natural(b))
                .shifted_up(70)
                .plus(&natural(a));
            let quotient = wide.divided_by(&natural(b));
            let next = quotient.plus(&Natural::from(1));
            assert!(quotient.times(&natural(b)) <= wide && wide < next.times(&natural(b)));
        }
    }

    #[test]
    fn counts_up_and_down() {
        let mut random = Random::new(3);
        for _ in 0..5_000 {
            let a = number(&mut random) >> 1;
            let bit = random.below(2) as u8;
            let mut x = natural(a);
            x.double_and_add(bit);
            assert_eq!(x, natural(2 * a + u128::from(bit)));
            if a > 0 {
                let mut x = natural(a);
                x.decrease();
                assert_eq!(x, natural(a - 1));
            }
        }
    }

    #[test]
    fn reads_digits() {
        let two_to_128 = Natural::power_of_two(128);
        assert_eq!(
            Natural::from_decimal("340282366920938463463374607431768211456"),
            two_to_128
        );
        assert_eq!(
            Natural::from_hexadecimal("100000000000000000000000000000000"),
            two_to_128
        );
        assert_eq!(two_to_128.width(), 129);
    }
}
