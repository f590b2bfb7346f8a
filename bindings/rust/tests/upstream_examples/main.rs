//! The examples of the documentation of the crate byte-unit 5.2.6, which this package replaces: their calls, with the
//! results that its README and its comments state. There are 100, nine of them in the README.
//!
//! `as_written` has the 91 whose calls compile here and return what is stated, a test each. `changed` has the other
//! nine, with what takes the place of a float or of the `Decimal` of `rust_decimal`.

/// Defines tests, each by its name and its lines.
macro_rules! tests {
    ($($name:ident { $($lines:tt)* })*) => { $(
        #[test]
        fn $name() {
            $($lines)*
        }
    )* };
}

mod as_written {
    mod adjusted;
    mod choices;
    mod readme;
    mod sizes;
    mod unit;
}
mod changed;
