//! The standard streams, without buffers.

use super::alloc::Global;
use std::fs::File;
use std::io::IsTerminal;
use std::os::fd::{AsFd, BorrowedFd};
use std::sync::OnceLock;

pub use std::io::{Error, ErrorKind, Read, Result, Write, sink};

/// What a program does outside itself.
pub struct HostRuntime;

impl HostRuntime {
    pub fn alloc(&self) -> Global {
        Global
    }

    pub fn reader(&self) -> Stream {
        Stream(&streams().0)
    }

    pub fn stderr(&self) -> std::io::Stderr {
        std::io::stderr()
    }
}

/// Returns standard output.
pub fn writer(_: &HostRuntime) -> Stream {
    Stream(&streams().1)
}

/// Standard input or output.
pub struct Stream(&'static Opened);

/// A stream, as it was when the program began.
enum Opened {
    /// By a descriptor of its own, without a buffer.
    Own(File),
    /// By the stream of Rust's std, with its buffer: the system gives no other descriptor.
    Shared,
    Closed,
}

impl Stream {
    /// Returns whether standard input is a terminal.
    pub fn is_terminal(&self) -> bool {
        match self.0 {
            Opened::Own(file) => file.is_terminal(),
            Opened::Shared => std::io::stdin().is_terminal(),
            Opened::Closed => false,
        }
    }
}

impl Read for Stream {
    fn read(&mut self, buf: &mut [u8]) -> Result<usize> {
        match self.0 {
            Opened::Own(file) => (&*file).read(buf),
            Opened::Shared => std::io::stdin().read(buf),
            Opened::Closed => Err(ErrorKind::NotFound.into()),
        }
    }
}

impl Write for Stream {
    fn write(&mut self, bytes: &[u8]) -> Result<usize> {
        match self.0 {
            Opened::Own(file) => (&*file).write(bytes),
            Opened::Shared => {
                let mut output = std::io::stdout().lock();
                let written = output.write(bytes)?;
                output.flush().map(|()| written)
            }
            Opened::Closed => Err(ErrorKind::NotFound.into()),
        }
    }

    fn flush(&mut self) -> Result<()> {
        Ok(())
    }
}

/// Returns standard input and output.
fn streams() -> &'static (Opened, Opened) {
    static STREAMS: OnceLock<(Opened, Opened)> = OnceLock::new();
    STREAMS.get_or_init(|| (opened(std::io::stdin().as_fd()), opened(std::io::stdout().as_fd())))
}

/// Returns the stream of a descriptor.
fn opened(stream: BorrowedFd) -> Opened {
    /// The error of a descriptor that is closed, on every Unix.
    const EBADF: i32 = 9;
    match stream.try_clone_to_owned() {
        Ok(other) => Opened::Own(other.into()),
        Err(error) if error.raw_os_error() == Some(EBADF) => Opened::Closed,
        Err(_) => Opened::Shared,
    }
}

/// Opens the streams before Rust's runtime does, in the place of each that is closed, `/dev/null`: to read or write a
/// stream that is closed is an error.
#[cfg(target_os = "linux")]
#[used]
#[unsafe(link_section = ".init_array")]
static AT_START: extern "C" fn() = {
    extern "C" fn open() {
        streams();
    }
    open
};
