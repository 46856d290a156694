//! Methods of numbers that older compilers lack. Where std has one of these, that one is called.
#![allow(unstable_name_collisions)]

/// `cast_unsigned`, of Rust 1.87.
pub trait Signed {
    type Unsigned;

    /// The same bits without a sign.
    fn cast_unsigned(self) -> Self::Unsigned;
}

/// `cast_signed`, of Rust 1.87.
pub trait Unsigned {
    type Signed;

    /// The same bits with a sign.
    fn cast_signed(self) -> Self::Signed;
}

/// `isqrt`, of Rust 1.84.
pub trait Root {
    /// The largest whole number whose square isn't larger.
    fn isqrt(self) -> Self;
}

/// `div_ceil`, of Rust 1.73.
pub trait DividedUp {
    /// The quotient, rounded up.
    fn div_ceil(self, by: Self) -> Self;
}

/// `checked_ilog10`, of Rust 1.67.
pub trait CheckedLogarithm {
    /// One less than the number of digits; of 0, nothing.
    fn checked_ilog10(self) -> Option<u32>;
}

macro_rules! casts {
    ($($signed:ty, $unsigned:ty;)*) => {
        $(
            impl Signed for $signed {
                type Unsigned = $unsigned;

                #[inline]
                fn cast_unsigned(self) -> $unsigned {
                    self as $unsigned
                }
            }

            impl Unsigned for $unsigned {
                type Signed = $signed;

                #[inline]
                fn cast_signed(self) -> $signed {
                    self as $signed
                }
            }
        )*
    };
}

casts! { i8, u8; i16, u16; i32, u32; i64, u64; i128, u128; isize, usize; }

macro_rules! arithmetic {
    ($($number:ty)*) => {
        $(
            impl Root for $number {
                fn isqrt(self) -> $number {
                    root_of(u128::from(self)) as $number
                }
            }

            impl DividedUp for $number {
                #[inline]
                fn div_ceil(self, by: $number) -> $number {
                    self / by + <$number>::from(self % by != 0)
                }
            }

            impl CheckedLogarithm for $number {
                fn checked_ilog10(self) -> Option<u32> {
                    logarithm_of(u128::from(self))
                }
            }
        )*
    };
}

arithmetic! { u8 u16 u32 u64 u128 }

impl DividedUp for usize {
    #[inline]
    fn div_ceil(self, by: usize) -> usize {
        self / by + usize::from(self % by != 0)
    }
}

// Digit by digit in base 2.
fn root_of(n: u128) -> u128 {
    let (mut rest, mut root) = (n, 0u128);
    let mut bit = 1u128 << 126;
    while bit > 0 {
        if rest >= root + bit {
            rest -= root + bit;
            root = (root >> 1) + bit;
        } else {
            root >>= 1;
        }
        bit >>= 2;
    }
    root
}

fn logarithm_of(n: u128) -> Option<u32> {
    let (mut left, mut digits) = (n, None);
    while left > 0 {
        left /= 10;
        digits = Some(digits.map_or(0, |count| count + 1));
    }
    digits
}

#[cfg(test)]
mod tests {
    use super::*;

    #[test]
    fn roots_and_logarithms() {
        for n in (0..2000).chain([u64::MAX, u64::MAX - 1, 4294967296, 18446744065119617025]) {
            let root = Root::isqrt(n);
            assert!(u128::from(root) * u128::from(root) <= u128::from(n));
            assert!((u128::from(root) + 1) * (u128::from(root) + 1) > u128::from(n));
            let digits = CheckedLogarithm::checked_ilog10(n).map(|found| found as usize + 1);
            assert_eq!(digits, Some(n.to_string().len()).filter(|_| n > 0));
            assert_eq!(DividedUp::div_ceil(n, 7), n / 7 + u64::from(n % 7 > 0));
        }
        assert_eq!(Root::isqrt(u128::MAX), u128::from(u64::MAX));
    }

    #[test]
    fn casts_keep_bits() {
        assert_eq!(Signed::cast_unsigned(-1i64), u64::MAX);
        assert_eq!(Unsigned::cast_signed(u32::MAX), -1i32);
    }
}
