//! The command line, over the crate `clap`. What is found is borrowed from the words, as in Rattle's port.
//!
//! The words of the two options that `clap` adds itself differ from one of its versions to the next, so they are given
//! here. The words of a refusal are those of the `clap` that is built in.

use crate::alloc::AllocError;
use crate::runtime::spare_memory;
use std::marker::PhantomData;
use std::ops::RangeFrom;
use std::str::FromStr;

pub use clap::ArgAction;

/// What a value may be.
pub mod builder {
    /// What a value may be: a number of these bounds.
    #[derive(Clone, Copy)]
    pub struct ValueParser {
        pub(super) least: u64,
        pub(super) most: u64,
    }

    impl ValueParser {
        /// A number of these bounds.
        pub fn unsigned(least: u64, most: u64) -> ValueParser {
            ValueParser { least, most }
        }
    }
}

/// Why there is none.
pub mod error {
    /// What is wrong, or was asked for.
    #[derive(Clone, Copy, PartialEq, Eq)]
    pub enum ErrorKind {
        /// Memory ran out.
        OutOfMemory,
        /// Help was asked for.
        DisplayHelp,
        /// The version was asked for.
        DisplayVersion,
        /// The line is refused.
        Other,
    }
}

/// An argument.
pub struct Arg<'a> {
    inner: clap::Arg,
    words: PhantomData<&'a ()>,
}

impl<'a> Arg<'a> {
    fn of(inner: clap::Arg) -> Arg<'a> {
        Arg { inner, words: PhantomData }
    }

    /// An argument of this name.
    pub fn new(name: &'static str) -> Arg<'a> {
        Arg::of(clap::Arg::new(name))
    }

    /// What the help says of it.
    pub fn help(self, text: &'static str) -> Arg<'a> {
        Arg::of(self.inner.help(text))
    }

    /// Whether it can't be left out.
    pub fn required(self, required: bool) -> Arg<'a> {
        Arg::of(self.inner.required(required))
    }

    /// It is an option of this name.
    pub fn long(self, name: &'static str) -> Arg<'a> {
        Arg::of(self.inner.long(name))
    }

    /// What is done if it is there.
    pub fn action(self, action: ArgAction) -> Arg<'a> {
        Arg::of(self.inner.action(action))
    }

    /// How many values it may have.
    pub fn num_args(self, range: RangeFrom<usize>) -> Arg<'a> {
        Arg::of(self.inner.num_args(range))
    }

    /// What the help calls its value.
    pub fn value_name(self, name: &'static str) -> Arg<'a> {
        Arg::of(self.inner.value_name(name))
    }

    /// What its value may be.
    pub fn value_parser(self, parser: builder::ValueParser) -> Arg<'a> {
        let numbers = clap::builder::RangedU64ValueParser::<u64>::new().range(parser.least..=parser.most);
        Arg::of(self.inner.value_parser(numbers))
    }
}

/// A command line that is understood.
pub struct Command<'a> {
    inner: clap::Command,
    /// Whether `--help` says more than `-h`.
    has_more: bool,
    words: PhantomData<&'a ()>,
}

impl<'a> Command<'a> {
    fn with(self, change: impl FnOnce(clap::Command) -> clap::Command) -> Command<'a> {
        Command { inner: change(self.inner), ..self }
    }

    /// The command line of a program, or of a subcommand.
    pub fn new(name: &'static str) -> Command<'a> {
        let inner = clap::Command::new(name).disable_help_flag(true).disable_version_flag(true);
        Command { inner, has_more: false, words: PhantomData }
    }

    /// What the short help says of it.
    pub fn about(self, text: &'static str) -> Command<'a> {
        self.with(|command| command.about(text))
    }

    /// What the long help says of it.
    pub fn long_about(self, text: &'static str) -> Command<'a> {
        Command { has_more: true, ..self.with(|command| command.long_about(text)) }
    }

    /// What `--version` says after the name.
    pub fn version(self, text: &'static str) -> Command<'a> {
        let asks = clap::Arg::new("version").short('V').long("version").action(clap::ArgAction::Version);
        // after `-h`, which is added last
        let asks = asks.help("Print version").display_order(1000);
        self.with(|command| command.version(text).arg(asks))
    }

    /// What comes after the help.
    pub fn after_help(self, text: &'static str) -> Command<'a> {
        self.with(|command| command.after_help(text))
    }

    /// Whether a subcommand can't be left out.
    pub fn subcommand_required(self, required: bool) -> Command<'a> {
        self.with(|command| command.subcommand_required(required))
    }

    /// The name by which the help calls the program.
    pub fn bin_name(self, name: &'static str) -> Result<Command<'a>, AllocError> {
        Ok(self.with(|command| command.bin_name(name)))
    }

    /// One more subcommand.
    pub fn subcommand(self, subcommand: Command<'a>) -> Result<Command<'a>, AllocError> {
        Ok(self.with(|command| command.subcommand(subcommand.whole())))
    }

    /// One more argument.
    pub fn arg(self, arg: Arg<'a>) -> Result<Command<'a>, AllocError> {
        Ok(self.with(|command| command.arg(arg.inner)))
    }

    /// With the option that asks for help.
    fn whole(self) -> clap::Command {
        let asks = clap::Arg::new("help").short('h').long("help").action(clap::ArgAction::Help).display_order(999);
        let asks = match self.has_more {
            true => asks.help("Print help (see more with '--help')").long_help("Print help (see a summary with '-h')"),
            false => asks.help("Print help"),
        };
        self.inner.arg(asks)
    }

    /// What these words say.
    pub fn try_get_matches_from(self, words: &'a [String]) -> Result<ArgMatches<'a>, Error> {
        spare_memory()?;
        match self.whole().try_get_matches_from(words) {
            Ok(matches) => Ok(ArgMatches::of(&matches, words)),
            Err(error) => Err(Error { inner: Some(error) }),
        }
    }
}

/// What was found in the words.
pub struct ArgMatches<'a> {
    matches: clap::ArgMatches,
    /// The texts of the values of each name.
    values: Vec<(String, Vec<&'a str>)>,
    subcommand: Option<(String, Box<ArgMatches<'a>>)>,
}

impl<'a> ArgMatches<'a> {
    fn of(matches: &clap::ArgMatches, words: &'a [String]) -> ArgMatches<'a> {
        let texts =
            |name| matches.get_raw(name).into_iter().flatten().filter_map(|value| in_words(value.to_str()?, words));
        let values = matches.ids().map(|id| (id.to_string(), texts(id.as_str()).collect())).collect();
        let below = matches.subcommand();
        let subcommand = below.map(|(name, matches)| (name.to_string(), Box::new(ArgMatches::of(matches, words))));
        ArgMatches { matches: matches.clone(), values, subcommand }
    }

    /// The subcommand, and what was found for it.
    pub fn subcommand(&self) -> Option<(&str, &ArgMatches<'a>)> {
        self.subcommand.as_ref().map(|(name, matches)| (name.as_str(), &**matches))
    }

    /// The texts of the values of this name.
    pub fn get_strs(&self, name: &str) -> Option<&[&'a str]> {
        self.values.iter().find(|(id, _)| id == name).map(|(_, values)| values.as_slice())
    }

    /// The text of a value.
    pub fn get_str(&self, name: &str) -> Option<&'a str> {
        self.get_strs(name)?.first().copied()
    }

    /// Whether the option of this name is there.
    pub fn get_flag(&self, name: &str) -> bool {
        self.matches.get_flag(name)
    }

    /// The value of this name, read.
    pub fn get_one<T: FromStr>(&self, name: &str) -> Option<T> {
        self.get_str(name)?.parse().ok()
    }
}

/// The word that a value is, or the end of one.
fn in_words<'a>(value: &str, words: &'a [String]) -> Option<&'a str> {
    let word = words.iter().find(|word| word.ends_with(value))?;
    Some(&word[word.len() - value.len()..])
}

/// Why there are no matches: what `clap` says, or nothing if memory ran out.
pub struct Error {
    inner: Option<clap::Error>,
}

impl Error {
    /// What is wrong, or was asked for.
    pub fn kind(&self) -> error::ErrorKind {
        match self.inner.as_ref().map(clap::Error::kind) {
            None => error::ErrorKind::OutOfMemory,
            Some(clap::error::ErrorKind::DisplayHelp) => error::ErrorKind::DisplayHelp,
            Some(clap::error::ErrorKind::DisplayVersion) => error::ErrorKind::DisplayVersion,
            Some(_) => error::ErrorKind::Other,
        }
    }

    /// What is printed of it.
    pub fn to_string(&self) -> Result<String, AllocError> {
        match &self.inner {
            None => Err(AllocError),
            Some(error) => Ok(error.render().to_string()),
        }
    }
}

impl From<AllocError> for Error {
    fn from(_error: AllocError) -> Error {
        Error { inner: None }
    }
}
