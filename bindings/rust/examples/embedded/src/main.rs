//! Reads sizes and prints their texts on a Cortex-M4, without std and without an allocator: for each line that the
//! debugger has, by semihosting, the size and its text with a unit, or `rejected`.
#![no_std]
#![no_main]

use core::arch::asm;
use core::fmt::{self, Write};
use core::panic::PanicInfo;

use byte_unit::Byte;

/// A file of the debugger, by its handle.
struct File(usize);

/// Calls an operation of the debugger.
fn debugger(operation: usize, arguments: &[usize]) -> usize {
    let result;
    // SAFETY: the debugger reads the arguments, and writes only where one of them points.
    unsafe { asm!("bkpt 0xab", inout("r0") operation => result, in("r1") arguments.as_ptr()) }
    result
}

/// Ends the program with an exit status.
fn exit(status: usize) -> ! {
    debugger(0x20, &[0x2_0026, status]);
    loop {}
}

impl File {
    /// Opens the standard input (0) or output (4).
    fn open(mode: usize) -> Self {
        File(debugger(0x01, &[c":tt".as_ptr() as usize, mode, 3]))
    }

    /// Reads a line to a buffer, as far as it fits. Returns its length, or `None` after the last line.
    fn read_line(&self, line: &mut [u8]) -> Option<usize> {
        let (mut len, mut byte) = (0, 0u8);
        while debugger(0x06, &[self.0, &raw mut byte as usize, 1]) == 0 && byte != b'\n' {
            line.iter_mut().skip(len).take(1).for_each(|place| *place = byte);
            len += 1;
        }
        (byte == b'\n').then_some(len)
    }
}

impl Write for File {
    fn write_str(&mut self, text: &str) -> fmt::Result {
        let left = debugger(0x05, &[self.0, text.as_ptr() as usize, text.len()]);
        if left == 0 { Ok(()) } else { Err(fmt::Error) }
    }
}

/// Prints the size of each line. A line that is longer than the buffer is rejected.
fn print_sizes(input: File, mut output: File) -> fmt::Result {
    let mut line = [0; 64];
    while let Some(len) = input.read_line(&mut line) {
        match line.get(..len).and_then(|line| Byte::parse_bytes(line, false)) {
            Some(Ok(size)) => writeln!(output, "{size} = {size:#}")?,
            _ => writeln!(output, "rejected")?,
        }
    }
    Ok(())
}

/// Where the processor starts: without arguments, so any calling convention fits.
#[unsafe(no_mangle)]
fn start() -> ! {
    exit(usize::from(print_sizes(File::open(0), File::open(4)).is_err()))
}

#[panic_handler]
fn panicked(_: &PanicInfo) -> ! {
    exit(1)
}
