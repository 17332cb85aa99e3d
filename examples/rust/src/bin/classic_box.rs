//! A Classic box's main loop: takes the frames of a byte stream from standard input and keeps each payload as a record of an
//! outbox file.
//!
//!     classic_box [--times] OUTBOX_FILE < BYTES
//!
//! Standard input may be a serial device: a terminal is made to pass on every byte as it is, and to send none back.
//! Standard output: `record PLACE LENGTH` for each record, the place of its length field in the file and the length of its
//! payload, with --times also the time, as 2026-11-17T03:12:45Z. The line is written after the record's fsync has come back, so
//! what is reported is kept.
//! Standard error: `dropped PLACE, kept in NAME` for a cut last record that was found at the start; `put aside as NAME: WHY` and
//! `new outbox NAME` for a file that is no outbox, or has a record that is longer than this box's messages; `the outbox file was
//! taken away, new outbox NAME` where somebody moved or deleted it; `refused NUMBER` for a refused byte of the stream, and
//! `refused NUMBER, COUNT more` where more by that number came before the next record; and what ended the program. Nothing that
//! stood in the file is deleted: what is dropped or put aside stands beside it, and is on the disk before the next record is
//! taken.
//! Ends with 0 at the end of the input; with 1 after the first failed call of the system, or if the file is open in another box
//! or is a standard stream of this one (it is then left as it was); with 2 on bad usage. Readers of the reports and notes that
//! are gone, or no longer read, stop nothing: the first report that fails is noted.

use boxes::{make_raw, note_number, Failure, OutboxFile, Times};
use pitokaenge::{sizes, Event, Extractor, Limit, Stream};
use std::io::{self, ErrorKind, Read};
use std::path::Path;
use std::process::ExitCode;

/// A frame tells no stream: what comes over this link is what the crew says to the speaker.
const STREAM: Stream = Stream::Alexa;

/// The largest message of the link, in bytes.
const LIMIT: usize = 4096;

fn main() -> ExitCode {
    boxes::run(
        "classic_box [--times] OUTBOX_FILE < BYTES",
        |[path], times| keep_frames(Path::new(&path), times),
    )
}

fn keep_frames(path: &Path, times: Times) -> Result<(), Failure> {
    make_raw(&io::stdin())?;
    let mut outbox = OutboxFile::<{ sizes::one_record(LIMIT) }>::open(path, times)?;
    let frame = [0; sizes::extractor_buffer(LIMIT)];
    let mut extractor = Extractor::new(Limit::of::<LIMIT>(), frame)?;
    let mut input = [0; 256];
    loop {
        let count = match io::stdin().read(&mut input) {
            Ok(0) => return Ok(()),
            Ok(count) => count,
            Err(reason) if reason.kind() == ErrorKind::Interrupted => continue,
            Err(reason) => return Err(Failure::System("read the stream", reason)),
        };
        let mut rest = &input[..count];
        while let Some(event) = extractor.feed(&mut rest) {
            match event {
                Event::Frame(frame) => outbox.keep(STREAM, frame.payload)?,
                Event::Refused(refusal) => note_number("refused", refusal.number()),
            }
        }
    }
}
