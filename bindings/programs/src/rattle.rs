//! The names of Rattle's std that the rendered programs use, with their calls: what allocates answers a failure, and what
//! a program does outside itself goes through its [`HostRuntime`].

pub mod alloc;
pub mod env;
pub mod io;
mod string;
mod vec;

pub use io::HostRuntime;
pub use string::String;
pub use vec::Vec;

/// Writes a text to standard error. Returns an error if that fails.
macro_rules! eprint {
    ($rt:expr; $($text:tt)*) => {
        std::io::Write::write_fmt(&mut $rt.stderr(), format_args!($($text)*))
    };
}

/// Does what `eprint!` does, with a line end.
macro_rules! eprintln {
    ($rt:expr; $($text:tt)*) => {
        $crate::rattle::eprint!($rt; "{}\n", format_args!($($text)*))
    };
}

/// Returns a text, or `AllocError`.
macro_rules! format {
    (in $alloc:expr; $($text:tt)*) => {{
        let mut text = $crate::rattle::String::new($alloc);
        text.write_fmt(format_args!($($text)*)).map(|()| text)
    }};
}

pub(crate) use {eprint, eprintln, format};
