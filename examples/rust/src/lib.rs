//! What the two boxes have in common, classic_box and low_energy_box: an outbox file that keeps every record which was
//! reported, however the program ends, and how a box says what it has to say.

mod notes;
mod outbox_file;
mod system;

pub use notes::{note, note_number};
pub use outbox_file::{check_apart, is_outbox, OutboxFile};

use pitokaenge::Refusal;
use std::env;
use std::ffi::OsString;
use std::fmt;
use std::io::{self, IsTerminal};
use std::os::fd::AsFd;
use std::process::ExitCode;

/// What ends a box.
#[derive(Debug)]
pub enum Failure {
    /// A call of the system failed.
    System(&'static str, io::Error),
    /// The library refused a call for which it has no reason: this program is wrong.
    Refused(Refusal),
    Other(String),
}

impl Failure {
    /// Of a call of the system, what it was for.
    pub fn to(what: &'static str) -> impl Fn(io::Error) -> Failure {
        move |reason| Failure::System(what, reason)
    }
}

impl From<Refusal> for Failure {
    fn from(refusal: Refusal) -> Failure {
        Failure::Refused(refusal)
    }
}

impl fmt::Display for Failure {
    fn fmt(&self, f: &mut fmt::Formatter<'_>) -> fmt::Result {
        match self {
            Failure::System(what, reason) => write!(f, "{what}: {reason}"),
            Failure::Refused(refusal) => write!(f, "{refusal}"),
            Failure::Other(why) => write!(f, "{why}"),
        }
    }
}

/// Whether reports have the time.
#[derive(Clone, Copy, PartialEq, Eq)]
pub enum Times {
    None,
    Told,
}

/// Runs a box on its words, and says what ended it: 0 at the end of the input, 1 after a failure, 2 on bad usage.
pub fn run<const WORDS: usize>(
    usage: &str,
    main_loop: impl FnOnce([OsString; WORDS], Times) -> Result<(), Failure>,
) -> ExitCode {
    system::ignore_file_size_signal();
    let mut words = env::args_os().skip(1).peekable();
    let times = match words.next_if(|word| word == "--times") {
        Some(_) => Times::Told,
        None => Times::None,
    };
    let words = words.collect::<Vec<_>>();
    // A file's name that begins with '-' is written as ./-x.
    let asks = words
        .first()
        .is_some_and(|word| word.as_encoded_bytes().starts_with(b"-"));
    let (false, Ok(words)) = (asks, words.try_into()) else {
        note(format_args!("usage: {usage}"));
        return ExitCode::from(2);
    };
    let ended = main_loop(words, times);
    notes::tell_counted();
    match ended {
        Ok(()) => ExitCode::SUCCESS,
        Err(failure) => {
            note(format_args!("box: {failure}"));
            ExitCode::FAILURE
        }
    }
}

/// Whether an output takes bytes within so many milliseconds.
pub fn is_ready(output: &impl AsFd, milliseconds: i32) -> bool {
    system::is_ready(output, milliseconds)
}

/// A terminal passes on all bytes as they are, and sends none back.
pub fn make_raw(line: &(impl AsFd + IsTerminal)) -> Result<(), Failure> {
    system::make_raw(line).map_err(Failure::to("set the serial line"))
}
