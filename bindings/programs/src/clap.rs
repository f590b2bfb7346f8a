//! The names and messages of Rattle's clap that the command uses, with their calls, over Rust's clap of any version 4.

use crate::names::{abbreviations, most_similar};
use crate::rattle::alloc::{AllocError, Global};
use crate::rattle::io::{self, Write};
use crate::rattle::{HostRuntime, String as Text};
use clap::builder::{IntoResettable, ValueParser, ValueRange};
use clap::error::{ContextKind, ContextValue};
use error::ErrorKind;
use std::{fmt, marker::PhantomData};

pub use clap::{ArgAction, value_parser};

const USAGE: &str = "Usage: byte-unit [OPTION].. [SIZE]..";

/// Methods that change the value of clap inside.
macro_rules! builders {
    ($($name:ident($value:ident: $type:ty) $given:expr;)*) => {
        $(pub fn $name(self, $value: $type) -> Self {
            Self { inner: self.inner.$name($given), ..self }
        })*
    };
}

/// A command line.
pub struct Command<'a> {
    inner: clap::Command,
    texts: PhantomData<&'a str>,
}

impl<'a> Command<'a> {
    /// Creates a command, with the options for its help and its version.
    pub fn new(_: Global, name: &'static str) -> Self {
        let shown = |name, action, help| clap::Arg::new(name).long(name).action(action).help(help).display_order(1000);
        let inner = clap::Command::new(name)
            .disable_help_flag(true)
            .disable_version_flag(true)
            .arg(shown("help", ArgAction::Help, "Print help").short('h'))
            .arg(shown("version", ArgAction::Version, "Print version").short('V'));
        Command { inner, texts: PhantomData }
    }

    builders! {
        version(version: &str) format!("{version} (rustc)");
        about(text: &'static str) text;
        override_usage(text: &'static str) text;
        after_help(text: &'static str) text;
        args_override_self(yes: bool) yes;
        infer_long_args(_yes: bool) false; // but see below
    }

    pub fn arg(self, arg: Arg<'a>) -> Result<Self, AllocError> {
        Ok(Command { inner: self.inner.arg(arg.inner), ..self })
    }

    pub fn try_get_matches_from(self, words: &[Text]) -> Result<ArgMatches<'_>, Error> {
        // By hand, since versions of clap differ on a beginning of several names: here that is unknown.
        let names: Vec<_> = self.inner.get_arguments().filter_map(clap::Arg::get_long).map(str::to_owned).collect();
        let mut command = names
            .iter()
            .fold(self.inner, |command, name| command.mut_arg(name, |arg| arg.aliases(abbreviations(name, &names))));
        let found = command.try_get_matches_from_mut(words.iter().map(Text::as_str));
        let inner = found.map_err(|error| Error::of(&error, &command))?;
        // The operands are words, in their order.
        let mut rest = words.iter().map(Text::as_str);
        let mut operand = |text: &String| rest.find(|word| word == text);
        let operands = inner.get_many("SIZE").map(|texts| texts.filter_map(&mut operand).collect());
        Ok(ArgMatches { inner, words, operands })
    }
}

/// An option, or the operands.
pub struct Arg<'a> {
    inner: clap::Arg,
    texts: PhantomData<&'a str>,
}

impl<'a> Arg<'a> {
    pub fn new(_: Global, name: &'a str) -> Self {
        Arg { inner: clap::Arg::new(name.to_owned()), texts: PhantomData }
    }

    builders! {
        long(name: &'a str) name.to_owned();
        short(letter: char) letter;
        action(action: ArgAction) action;
        help(text: &'a str) text.to_owned();
        value_name(name: &'a str) name.to_owned();
        value_parser(parser: impl IntoResettable<ValueParser>) parser;
        num_args(count: impl Into<ValueRange>) count;
        require_equals(yes: bool) yes;
        default_missing_value(value: &'static str) value;
        allow_hyphen_values(yes: bool) yes;
    }

    pub fn conflicts_with(self, name: &'static str) -> Result<Self, AllocError> {
        Ok(Arg { inner: self.inner.conflicts_with(name), ..self })
    }
}

/// What the words of a call give.
pub struct ArgMatches<'a> {
    inner: clap::ArgMatches,
    words: &'a [Text],
    operands: Option<Vec<&'a str>>,
}

impl<'a> ArgMatches<'a> {
    pub fn get_flag(&self, name: &str) -> bool {
        self.inner.get_flag(name)
    }

    pub fn get_one<T: Clone + Send + Sync + 'static>(&self, name: &str) -> Option<T> {
        self.inner.get_one(name).cloned()
    }

    /// Returns the value of an option: the word, or the end of a word, that has this text.
    pub fn get_str(&self, name: &str) -> Option<&'a str> {
        let value: &String = self.inner.get_one(name)?;
        let word = self.words.iter().find(|word| word.ends_with(value.as_str()))?;
        Some(&word.as_str()[word.len() - value.len()..])
    }

    /// Returns the operands.
    pub fn get_strs(&self, _: &str) -> Option<&[&'a str]> {
        self.operands.as_deref()
    }

    pub fn contains_id(&self, name: &str) -> bool {
        self.inner.contains_id(name)
    }
}

pub mod error {
    /// Why there are no matches: never `OutOfMemory`, which ends a program over Rust's clap.
    #[derive(PartialEq, Eq)]
    pub enum ErrorKind {
        OutOfMemory,
        Other,
    }
}

/// The help, the version, or what is wrong.
pub struct Error {
    is_wrong: bool,
    text: String,
}

impl Error {
    fn of(error: &clap::Error, command: &clap::Command) -> Self {
        let is_wrong = error.use_stderr();
        Error { is_wrong, text: if is_wrong { message(error, command) } else { error.to_string() } }
    }

    pub fn kind(&self) -> ErrorKind {
        ErrorKind::Other
    }

    pub fn use_stderr(&self) -> bool {
        self.is_wrong
    }

    pub fn print(&self, rt: &HostRuntime) -> io::Result<()> {
        io::writer(rt).write_all(self.text.as_bytes())
    }
}

impl fmt::Display for Error {
    fn fmt(&self, f: &mut fmt::Formatter<'_>) -> fmt::Result {
        f.write_str(&self.text)
    }
}

/// Returns the message of an error, in the words of Rattle's clap.
fn message(error: &clap::Error, command: &clap::Command) -> String {
    use clap::error::ErrorKind as Kind;
    let given = |kind| error.get(kind).map(ContextValue::to_string).unwrap_or_default();
    let (arg, value) = (given(ContextKind::InvalidArg), given(ContextKind::InvalidValue));
    let why = || std::error::Error::source(error).map(ToString::to_string).unwrap_or_default();
    let text = match error.kind() {
        Kind::UnknownArgument => {
            let word = arg.strip_prefix("--").unwrap_or_default();
            let tip = match most_similar(word, command.get_arguments().filter_map(clap::Arg::get_long)) {
                Some(long) => format!("a similar argument exists: '--{long}'"),
                None => format!("to pass '{arg}' as a value, use '-- {arg}'"),
            };
            format!("unexpected argument '{arg}' found\n\n  tip: {tip}\n\n{USAGE}")
        }
        Kind::ArgumentConflict => {
            format!("the argument '{arg}' cannot be used with '{}'\n\n{USAGE}", given(ContextKind::PriorArg))
        }
        Kind::TooManyValues => {
            format!("unexpected value '{value}' for '{arg}' found; no more were expected\n\n{USAGE}")
        }
        Kind::InvalidValue => format!("a value is required for '{arg}' but none was supplied"),
        Kind::ValueValidation => format!("invalid value '{value}' for '{arg}': {}", why()),
        _ => return error.to_string(),
    };
    format!("error: {text}\n\nFor more information, try '--help'.\n")
}
