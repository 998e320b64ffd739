//! The real `clap`, by calls that are passed an allocator. It ends the process where there is no memory.
use crate::alloc::{AllocError, Global};
use crate::string::String;

pub mod error {
    /// Why words are refused: the editor tells want of memory from all else.
    #[derive(Clone, Copy, Debug, PartialEq, Eq)]
    pub enum ErrorKind {
        OutOfMemory,
        Refused,
    }
}

pub mod builder {
    /// What a value has to be.
    #[derive(Clone, Copy, Debug)]
    pub struct ValueParser(pub(super) u64, pub(super) u64);

    impl ValueParser {
        pub fn unsigned(low: u64, high: u64) -> Self {
            ValueParser(low, high)
        }
    }
}

use builder::ValueParser;
use error::ErrorKind;

pub struct Error(ErrorKind);

impl Error {
    pub fn kind(&self) -> ErrorKind {
        self.0
    }
}

pub struct Arg<'a>(::clap::Arg, std::marker::PhantomData<&'a str>);

impl<'a> Arg<'a> {
    pub fn new(_: Global, id: &'a str) -> Self {
        Arg(::clap::Arg::new(id.to_owned()), std::marker::PhantomData)
    }
    pub fn long(self, name: &'a str) -> Self {
        Arg(self.0.long(name.to_owned()), self.1)
    }
    pub fn value_parser(self, parser: ValueParser) -> Self {
        let range = ::clap::value_parser!(u64).range(parser.0..=parser.1);
        Arg(self.0.value_parser(range), self.1)
    }
    pub fn required(self, required: bool) -> Self {
        Arg(self.0.required(required), self.1)
    }
}

pub struct Command<'a>(::clap::Command, std::marker::PhantomData<&'a str>);

pub struct ArgMatches<'a>(::clap::ArgMatches, &'a [String]);

impl<'a> Command<'a> {
    pub fn new(_: Global, name: &'a str) -> Self {
        Command(::clap::Command::new(name.to_owned()), std::marker::PhantomData)
    }
    pub fn disable_help_flag(self, yes: bool) -> Self {
        Command(self.0.disable_help_flag(yes), self.1)
    }
    pub fn disable_version_flag(self, yes: bool) -> Self {
        Command(self.0.disable_version_flag(yes), self.1)
    }
    pub fn arg(self, arg: Arg<'a>) -> Result<Self, AllocError> {
        Ok(Command(self.0.arg(arg.0), self.1))
    }

    /// The first word is the program's own name.
    pub fn try_get_matches_from(self, words: &'a [String]) -> Result<ArgMatches<'a>, Error> {
        match self.0.try_get_matches_from(words.iter().map(|it| it.as_str())) {
            Ok(found) => Ok(ArgMatches(found, words)),
            Err(_) => Err(Error(ErrorKind::Refused)),
        }
    }
}

impl<'a> ArgMatches<'a> {
    /// A value that is a word of its own.
    pub fn get_str(&self, id: &str) -> Option<&'a str> {
        let found = self.0.get_one::<std::string::String>(id)?;
        self.1.iter().map(|it| it.as_str()).find(|it| it == found)
    }
    pub fn get_one<T: std::any::Any + std::clone::Clone + Send + Sync>(&self, id: &str) -> Option<T> {
        self.0.get_one::<T>(id).map(std::clone::Clone::clone)
    }
}
