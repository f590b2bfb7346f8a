//! Vectors of a few lanes, as arrays, with the few calls that are used; those on all bytes go by words of eight.
#![allow(non_camel_case_types)]

/// A vector of `N` lanes.
#[derive(Clone, Copy, Debug, PartialEq, Eq)]
pub struct Lanes<T, const N: usize>([T; N]);

/// Whether a comparison holds, for each of at most 64 lanes, as the bits of a number, the first as the lowest.
#[derive(Clone, Copy, Debug, PartialEq, Eq)]
pub struct Mask(u64);

pub type u8x4 = Lanes<u8, 4>;
pub type u8x8 = Lanes<u8, 8>;
pub type u8x16 = Lanes<u8, 16>;
pub type u8x32 = Lanes<u8, 32>;
pub type u32x1 = Lanes<u32, 1>;
pub type u64x1 = Lanes<u64, 1>;

impl<T: Copy, const N: usize> Lanes<T, N> {
    /// Returns the vector whose lanes are all this value.
    #[inline(always)]
    pub const fn splat(value: T) -> Self {
        Lanes([value; N])
    }

    /// Returns the vector of these lanes.
    #[inline(always)]
    pub const fn from_array(lanes: [T; N]) -> Self {
        Lanes(lanes)
    }

    /// Returns the lanes.
    #[inline(always)]
    pub const fn to_array(self) -> [T; N] {
        self.0
    }

    /// Returns the vector of the first lanes of a slice. Panics if it is shorter.
    #[inline(always)]
    pub fn from_slice(slice: &[T]) -> Self {
        Lanes(*slice.first_chunk().expect("a slice with a lane for each"))
    }
}

/// Comparisons of vectors of which each eight lanes are a word.
impl<const N: usize> Lanes<u8, N> {
    /// Returns whether the lanes are equal to those of another vector.
    #[inline(always)]
    pub fn simd_eq(self, other: Self) -> Mask {
        Mask(self.simd_ne(other).0 ^ (u64::MAX >> (64 - N)))
    }

    /// Returns whether the lanes differ from those of another vector.
    #[inline(always)]
    pub fn simd_ne(self, other: Self) -> Mask {
        let (mut bits, mut at) = (0, N);
        while at > 0 {
            at -= 8;
            let word = self.word_at(at) ^ other.word_at(at);
            // The upper bit of each byte that is not zero: no sum of seven bits carries into the next byte.
            let others = (((word & 0x7f7f_7f7f_7f7f_7f7f) + 0x7f7f_7f7f_7f7f_7f7f) | word) & 0x8080_8080_8080_8080;
            // Each of these bits is moved to its place in the upper byte.
            bits = (bits << 8) | (others.wrapping_mul(0x0002_0408_1020_4081) >> 56);
        }
        Mask(bits)
    }

    /// Returns eight lanes as a number, the first as the lowest byte.
    #[inline(always)]
    fn word_at(&self, at: usize) -> u64 {
        u64::from_le_bytes(*self.0[at..].first_chunk().expect("eight lanes"))
    }
}

impl Mask {
    /// Returns the number whose bits are the lanes, the first as the lowest.
    #[inline(always)]
    pub fn to_bitmask(self) -> u64 {
        self.0
    }
}

/// Returns how many of eight bytes are the letters of `bits` in either case, from the first on.
#[inline(always)]
pub fn suffix_len(word: u64) -> usize {
    // With the bit 0x20 an ASCII letter is in lower case; no byte with it is 0, so the fifth one always differs.
    let others = (word | 0x2020_2020_2020_2020) ^ u64::from(u32::from_le_bytes(*b"bits"));
    others.trailing_zeros() as usize / 8
}

/// Returns the digits of a number below 10^16, with leading zeros.
#[inline(always)]
pub fn last_16_digits(n: u64) -> u8x16 {
    let (high, low) = (eight_digits((n / 100_000_000) as u32), eight_digits((n % 100_000_000) as u32));
    Lanes((u128::from(low) << 64 | u128::from(high)).to_le_bytes())
}

/// Returns the digits of a number below 10^8, with leading zeros, the first as the lowest byte: from two numbers of
/// four digits those of two, and from these all.
#[inline(always)]
fn eight_digits(n: u32) -> u64 {
    let fours = u64::from(n / 10_000) | u64::from(n % 10_000) << 32;
    // 10,486 / 2^20 is a little more than a hundredth, and 103 / 2^10 than a tenth: what is cut off is right.
    let hundreds = (fours * 10_486) >> 20 & 0x0000_007f_0000_007f;
    let twos = hundreds | (fours - hundreds * 100) << 16;
    let tens = (twos * 103) >> 10 & 0x000f_000f_000f_000f;
    (tens | (twos - tens * 10) << 8) | 0x3030_3030_3030_3030
}

impl u32x1 {
    /// Returns the lane of these bytes, the lowest first.
    #[inline(always)]
    pub const fn from_le_bytes(bytes: u8x4) -> Self {
        Lanes([u32::from_le_bytes(bytes.0)])
    }
}

impl u64x1 {
    /// Returns the lane of these bytes, the lowest first.
    #[inline(always)]
    pub const fn from_le_bytes(bytes: u8x8) -> Self {
        Lanes([u64::from_le_bytes(bytes.0)])
    }
}
