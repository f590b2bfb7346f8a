//! Converts sizes: the operands, or the lines of standard input, each to the form that the options ask for.

fn main() -> std::process::ExitCode {
    byte_unit_programs::convert_sizes()
}
