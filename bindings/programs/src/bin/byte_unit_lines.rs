//! Reads lines from standard input and writes the answer to each: the size that it represents, or its parse error.

fn main() -> std::process::ExitCode {
    byte_unit_programs::answer_lines()
}
