//! One command of options with a number and one word, as `clap` reads it.
use crate::alloc::{AllocError, Global};
use crate::string::String;

pub mod error {
    #[derive(Clone, Copy, Debug, PartialEq, Eq)]
    pub enum ErrorKind {
        OutOfMemory,
        Refused,
    }
}

pub mod builder {
    #[derive(Clone, Copy, Debug)]
    pub enum ValueParser {
        Text,
        Unsigned(u64, u64),
    }

    impl ValueParser {
        pub fn unsigned(low: u64, high: u64) -> Self {
            ValueParser::Unsigned(low, high)
        }
    }
}

use builder::ValueParser;
use error::ErrorKind;

pub struct Error(ErrorKind);

impl Error {
    pub fn kind(&self) -> ErrorKind {
        self.0
    }
}

pub struct Arg<'a> {
    id: &'a str,
    long: Option<&'a str>,
    parser: ValueParser,
    required: bool,
}

impl<'a> Arg<'a> {
    pub fn new(_: Global, id: &'a str) -> Self {
        Arg { id, long: None, parser: ValueParser::Text, required: false }
    }
    pub fn long(self, name: &'a str) -> Self {
        Arg { long: Some(name), ..self }
    }
    pub fn value_parser(self, parser: ValueParser) -> Self {
        Arg { parser, ..self }
    }
    pub fn required(self, required: bool) -> Self {
        Arg { required, ..self }
    }
}

pub struct Command<'a>(std::vec::Vec<Arg<'a>>);

pub struct ArgMatches<'a>(std::vec::Vec<(&'a str, &'a str)>);

impl<'a> Command<'a> {
    pub fn new(_: Global, _: &'a str) -> Self {
        Command(std::vec::Vec::new())
    }
    pub fn disable_help_flag(self, _: bool) -> Self {
        self
    }
    pub fn disable_version_flag(self, _: bool) -> Self {
        self
    }
    pub fn arg(mut self, arg: Arg<'a>) -> Result<Self, AllocError> {
        self.0.push(arg);
        Ok(self)
    }

    /// The first word is the program's own name.
    pub fn try_get_matches_from(self, words: &'a [String]) -> Result<ArgMatches<'a>, Error> {
        let refused = Error(ErrorKind::Refused);
        let mut found: std::vec::Vec<(&'a str, &'a str)> = std::vec::Vec::new();
        let mut rest = words.iter().skip(1).map(|it| it.as_str());
        let mut ended = false;
        while let Some(word) = rest.next() {
            let (arg, value) = if !ended && word == "--" {
                ended = true;
                continue;
            } else if !ended && word.starts_with("--") {
                let (name, given) = match word[2..].split_once('=') {
                    Some((name, value)) => (name, Some(value)),
                    None => (&word[2..], None),
                };
                let Some(arg) = self.0.iter().find(|it| it.long == Some(name)) else {
                    return Err(refused);
                };
                let Some(value) = given.or_else(|| rest.next()) else {
                    return Err(refused);
                };
                (arg, value)
            } else if !ended && word.len() > 1 && word.starts_with('-') {
                return Err(refused);
            } else {
                let Some(arg) = self.0.iter().find(|it| it.long.is_none()) else {
                    return Err(refused);
                };
                (arg, word)
            };
            let fits = match arg.parser {
                ValueParser::Text => true,
                ValueParser::Unsigned(low, high) => value.parse().is_ok_and(|it: u64| low <= it && it <= high),
            };
            if !fits || found.iter().any(|it| it.0 == arg.id) {
                return Err(refused);
            }
            found.push((arg.id, value));
        }
        if self.0.iter().any(|arg| arg.required && found.iter().all(|it| it.0 != arg.id)) {
            return Err(refused);
        }
        Ok(ArgMatches(found))
    }
}

impl<'a> ArgMatches<'a> {
    pub fn get_str(&self, id: &str) -> Option<&'a str> {
        self.0.iter().find(|it| it.0 == id).map(|it| it.1)
    }
    pub fn get_one<T: std::str::FromStr>(&self, id: &str) -> Option<T> {
        self.get_str(id).and_then(|it| it.parse().ok())
    }
}
