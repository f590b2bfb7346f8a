//! The code by hand in `support` beside the proved code, as the renderer writes it: over all inputs, or ten million.
//! What is of Rattle's std, and has no source here, is beside plain code. Prints what differs, and how much.
#![allow(dead_code, unused_labels)] // A file has all its constants, and proofs name loops.

use std::array::from_fn;
use std::fmt::{self, Debug, Display, Formatter};
use std::ops::{Add, BitOr, Div, Mul, Rem};

use byte_unit::support::{self, lanes, InlineText};

const DRAWN: usize = 10_000_000;

include!("proved.rs");

/// Vectors with the calls of the proved code, each lane by itself.
#[derive(Clone, Copy)]
struct Lanes<T, const N: usize>([T; N]);

#[allow(non_camel_case_types)]
mod names {
    pub type u8x8 = super::Lanes<u8, 8>;
    pub type u8x16 = super::Lanes<u8, 16>;
    pub type u8x32 = super::Lanes<u8, 32>;
    pub type u16x8 = super::Lanes<u16, 8>;
    pub type u64x1 = super::Lanes<u64, 1>;
}
use names::*;

struct Mask(u64);

impl Mask {
    fn to_bitmask(&self) -> u64 {
        self.0
    }
}

impl<T: Copy + PartialEq, const N: usize> Lanes<T, N> {
    fn splat(value: T) -> Self {
        Lanes([value; N])
    }

    fn from_array(lanes: [T; N]) -> Self {
        Lanes(lanes)
    }

    fn shuffle(self, other: Self, order: [usize; N]) -> Self {
        Lanes(order.map(|at| if at < N { self.0[at] } else { other.0[at - N] }))
    }

    fn simd_ne(self, other: Self) -> Mask {
        Mask((0..N).filter(|&at| self.0[at] != other.0[at]).map(|at| 1 << at).sum())
    }

    fn simd_eq(self, other: Self) -> Mask {
        Mask((0..N).filter(|&at| self.0[at] == other.0[at]).map(|at| 1 << at).sum())
    }
}

impl u16x8 {
    fn to_le_bytes(self) -> u8x16 {
        Lanes(from_fn(|at| self.0[at / 2].to_le_bytes()[at % 2]))
    }
}

impl u64x1 {
    fn to_le_bytes(self) -> u8x8 {
        Lanes(self.0[0].to_le_bytes())
    }
}

/// Defines operators of vectors by those of their lanes.
macro_rules! of_each_lane {
    ($($Operator:ident $call:ident)*) => { $(
        impl<T: Copy + $Operator<Output = T>, const N: usize> $Operator for Lanes<T, N> {
            type Output = Self;

            fn $call(self, other: Self) -> Self {
                Lanes(from_fn(|at| self.0[at].$call(other.0[at])))
            }
        }
    )* };
}

of_each_lane! { Add add BitOr bitor Div div Mul mul Rem rem }

/// Numbers of a linear congruential generator, the upper half of its state; and what was wrong.
struct Checks {
    state: u128,
    wrong: usize,
}

impl Checks {
    fn next(&mut self) -> u64 {
        self.state = self.state.wrapping_mul(0x2360_ed05_1fc6_5da4_4385_df64_9fcc_f645).wrapping_add(1);
        (self.state >> 64) as u64
    }

    fn below(&mut self, limit: usize) -> usize {
        (self.next() >> 32) as usize % limit
    }

    fn bytes<const N: usize>(&mut self) -> [u8; N] {
        from_fn(|_| self.next() as u8)
    }

    #[inline(always)]
    fn same<T: PartialEq + Debug>(&mut self, call: &str, input: impl Debug, by_hand: T, proved: T) {
        if by_hand != proved {
            self.wrong += 1;
            if self.wrong < 10 {
                println!("{call} of {input:?}: {by_hand:?}, and proved is {proved:?}");
            }
        }
    }
}

/// All strings of eight digits, and all halves of sixteen.
fn digits(checks: &mut Checks) {
    let fours: Vec<u64> = (0..10_000)
        .map(|n| format!("{n:04}"))
        .map(|text| u64::from(u32::from_le_bytes(text.as_bytes().try_into().unwrap()) & 0x0f0f_0f0f))
        .collect();
    for high in &fours {
        for low in &fours {
            let word = high | low << 32;
            checks.same("value_of_eight", word, support::value_of_eight(word), value_of_eight(word));
        }
    }
    for n in 0..100_000_000 {
        let number = n * 100_000_000 + (99_999_999 - n);
        checks.same("last_16_digits", number, lanes::last_16_digits(number).to_array(), last_16_digits(number).0);
    }
}

/// Drawn numbers, words of letters of a suffix, and bytes of which most are digits.
fn drawn(checks: &mut Checks) {
    for _ in 0..DRAWN {
        let number = (checks.next() >> checks.below(64)) % 10_u64.pow(16);
        checks.same("last_16_digits", number, lanes::last_16_digits(number).to_array(), last_16_digits(number).0);
        let word = u64::from_le_bytes(from_fn(|at| {
            b"bitsBITS"[at % 4 + 4 * checks.below(2)] ^ [0, 0, 0, 0, 0, 0, 0x40, 0x80, 1, 0x20][checks.below(10)]
        }));
        checks.same("suffix_len", word, lanes::suffix_len(word), suffix_len(word));
        let len = checks.below(40);
        let some: [u8; 40] = from_fn(|_| match checks.below(24) {
            at @ 0..6 => [b'/', b':', b'0' ^ 0x80, b'9' | 0x80, 0, 255][at],
            digit => b'0' + digit as u8 % 10,
        });
        let (bytes, from, so_far) = (&some[..len], checks.below(len + 2), checks.next());
        // With digits before them, the number of these is read, too; past the end nothing is.
        let (end, value) = if from > len { (from, 0) } else { few_digits(bytes, from) };
        let whole = so_far.wrapping_mul(10_u64.wrapping_pow((end - from) as u32)).wrapping_add(value);
        checks.same("read_digits", (bytes, from), support::read_digits(bytes, from, so_far), (end, whole));
    }
}

/// All characters: where they are in a text, and in quotes.
fn characters(checks: &mut Checks) {
    for c in '\0'..=char::MAX {
        let text = format!("é{c}1");
        for index in [0, 2, 2 + c.len_utf8(), text.len()] {
            checks.same("char_at", (&text, index), support::char_at(&text, index), first_char(&text[index..]));
        }
        let (by_hand, formatted) = (Quoted(c).to_string(), format!("before {c:?} after"));
        checks.same("write_quoted", c, by_hand, formatted);
    }
}

/// A character in quotes between two words.
struct Quoted(char);

impl Display for Quoted {
    fn fmt(&self, f: &mut Formatter<'_>) -> fmt::Result {
        support::write_quoted(f, "before '", self.0, "' after")
    }
}

/// Compares the vectors of `support`.
macro_rules! vectors {
    ($checks:ident, $($name:ident $lanes:literal)*) => { $({
        let (a, b) = ($checks.bytes::<$lanes>(), $checks.bytes::<$lanes>());
        let b = from_fn(|at| if b[at] < 99 { a[at] ^ b[at] % 4 } else { b[at] });
        let (x, y) = (lanes::$name::from_array(a), lanes::$name::from_slice(&[&b[..], &[9]].concat()));
        let (plain_x, plain_y) = ($name::from_array(a), $name::from_array(b));
        $checks.same("simd_eq", (a, b), x.simd_eq(y).to_bitmask(), plain_x.simd_eq(plain_y).to_bitmask());
        $checks.same("simd_ne", (a, b), x.simd_ne(y).to_bitmask(), plain_x.simd_ne(plain_y).to_bitmask());
        $checks.same("lanes", (a, b), (x.to_array(), y.to_array(), lanes::$name::splat(a[0]).to_array()), (a, b, [a[0]; $lanes]));
    })* };
}

/// Drawn vectors, texts that may not fit, and conversions.
fn of_std(checks: &mut Checks) {
    for n in 0..DRAWN {
        vectors!(checks, u8x8 8 u8x16 16 u8x32 32);
        let (four, eight) = (checks.bytes::<4>(), checks.bytes::<8>());
        let words = (
            lanes::u32x1::from_le_bytes(lanes::u8x4::from_array(four)).to_array(),
            lanes::u64x1::from_le_bytes(lanes::u8x8::from_array(eight)).to_array(),
        );
        checks.same("from_le_bytes", (four, eight), words, ([u32::from_le_bytes(four)], [u64::from_le_bytes(eight)]));
        let near = [i128::MIN, -1, 0, 1, i128::from(u64::MAX), 1 << 64, i128::MAX];
        let wide = near.get(n).copied().unwrap_or((i128::from(checks.next()) - (1 << 63)) << checks.below(60));
        let converted = (support::u128_of(wide), support::u64_of(wide as u128));
        checks.same("u128_of, u64_of", wide, converted, (u128::try_from(wide).ok(), u64::try_from(wide as u128).ok()));
        let parts: [_; 3] = from_fn(|_| &"12345678"[..checks.below(9)]);
        let fit = parts
            .iter()
            .scan(0, |len, part| {
                *len += part.len();
                (*len <= 12).then_some(*part)
            })
            .collect::<String>();
        checks.same("InlineText", parts, InlineText::<12>::of(&Parts(parts)).as_str(), &fit);
    }
}

/// A text in parts, each of which is whole or left out with those after it.
struct Parts<'a>([&'a str; 3]);

impl Display for Parts<'_> {
    fn fmt(&self, f: &mut Formatter<'_>) -> fmt::Result {
        self.0.iter().try_for_each(|part| f.write_str(part))
    }
}

fn main() {
    let mut checks = Checks { state: 1, wrong: 0 };
    for check in [digits, drawn, characters, of_std] {
        check(&mut checks);
    }
    println!("{} wrong", checks.wrong);
}
