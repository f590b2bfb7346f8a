//! A string whose calls answer a failed allocation.

use super::alloc::{AllocError, Allocator, Global};
use std::fmt;
use std::marker::PhantomData;
use std::ops::Deref;

/// A string.
pub struct String<A: Allocator = Global> {
    text: std::string::String,
    alloc: PhantomData<A>,
}

impl<A: Allocator> String<A> {
    pub fn new(_: A) -> Self {
        String { text: std::string::String::new(), alloc: PhantomData }
    }

    pub fn push_str(&mut self, text: &str) -> Result<(), AllocError> {
        self.text.try_reserve(text.len())?;
        self.text.push_str(text);
        Ok(())
    }

    pub fn push(&mut self, c: char) -> Result<(), AllocError> {
        self.text.try_reserve(c.len_utf8())?;
        self.text.push(c);
        Ok(())
    }

    /// What `write!` calls.
    pub fn write_fmt(&mut self, text: fmt::Arguments<'_>) -> Result<(), AllocError> {
        fmt::Write::write_fmt(self, text).map_err(|_| AllocError)
    }

    pub fn clear(&mut self) {
        self.text.clear();
    }

    pub fn as_str(&self) -> &str {
        &self.text
    }
}

impl<A: Allocator> fmt::Write for String<A> {
    fn write_str(&mut self, text: &str) -> fmt::Result {
        self.push_str(text).map_err(|_| fmt::Error)
    }
}

impl<A: Allocator> Deref for String<A> {
    type Target = str;

    fn deref(&self) -> &str {
        &self.text
    }
}

impl<A: Allocator> fmt::Display for String<A> {
    fn fmt(&self, f: &mut fmt::Formatter<'_>) -> fmt::Result {
        f.write_str(&self.text)
    }
}

impl From<std::string::String> for String {
    fn from(text: std::string::String) -> Self {
        String { text, alloc: PhantomData }
    }
}
