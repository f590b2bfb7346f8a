//! The feature `rust_decimal`: conversions of decimals, both ways.

use byte_unit::rust_decimal::Decimal as Signed;
use byte_unit::{Byte, Decimal, ExceededBoundsError, Unit};

#[test]
fn each_decimal_that_both_have_is_converted() {
    let mut state = 1u128;
    for at in 0..20_000u32 {
        state = state.wrapping_mul(0x2360_ed05_1fc6_5da4_4385_df64_9fcc_f645).wrapping_add(1);
        let (mantissa, places) = (state >> 32 >> (at % 97), at % 29);
        let ours = Decimal::from_u128_with_scale(mantissa, places).unwrap();
        let theirs = Signed::try_from_i128_with_scale(mantissa as i128, places).unwrap();
        assert_eq!((theirs.try_into(), ours.try_into()), (Ok(ours), Ok(theirs)));
    }
    let number = "50.84".parse::<Signed>().unwrap();
    let size = Byte::from_decimal_with_unit(number.try_into().unwrap(), Unit::MB).unwrap();
    assert_eq!((size.as_u64(), size.get_recoverable_unit(false, 3).0.try_into()), (50_840_000, Ok(number)));
}

#[test]
fn others_are_errors() {
    assert_eq!(Decimal::try_from(-Signed::ZERO), Ok(Decimal::ZERO));
    assert_eq!(Decimal::try_from(Signed::NEGATIVE_ONE), Err(ExceededBoundsError));
    let most = (1 << 112) - 1;
    for (whole, fraction) in [(1 << 96, 0), (most, 0), (most, 10u128.pow(28) - 1), (1 << 100, 1), (1 << 95, 1)] {
        assert_eq!(Signed::try_from(Decimal::new(whole, fraction).unwrap()), Err(ExceededBoundsError));
    }
}
