//! Sends one Classic frame through a radio module that takes at most 64 bytes at a time: the payload comes from standard input
//! part by part, and the frame goes to standard output in writes of at most 64 bytes.
//!
//!     send SEQUENCE LENGTH < PAYLOAD
//!
//! SEQUENCE is the frame's sequence byte and LENGTH the payload's length, both in base 10. What stands on standard input
//! behind the payload is left there.
//! Ends with 0 once the frame is written; with 1 after a refusal (`refused NUMBER` on standard error: 15 for a sequence that
//! is a mark or no byte, and for a payload over the link's limit), if the payload ends early, or after a failed call of the
//! system; with 2 on bad usage.
//!
//! It holds no more than a part of the payload and what the module takes at once: neither the payload nor the frame.

use boxes::{note, Failure};
use pitokaenge::{FrameWriter, Limit, Refusal};
use std::env;
use std::fs::File;
use std::io::{self, Read, Write};
use std::os::fd::AsFd;
use std::process::ExitCode;

/// The largest message of the link.
const LIMIT: usize = 4096;

/// What the radio module takes.
const AT_ONCE: usize = 64;

fn main() -> ExitCode {
    let words: Vec<String> = env::args().skip(1).collect();
    let numbers = match &words[..] {
        [sequence, total] => sequence.parse().ok().zip(total.parse().ok()),
        _ => None,
    };
    let Some((sequence, total)) = numbers else {
        note("usage: send SEQUENCE LENGTH < PAYLOAD");
        return ExitCode::from(2);
    };
    match send(sequence, total) {
        Ok(()) => return ExitCode::SUCCESS,
        Err(Failure::Refused(refusal)) => note(format_args!("refused {}", refusal.number())),
        Err(failure) => note(format_args!("send: {failure}")),
    }
    ExitCode::FAILURE
}

fn send(sequence: u64, total: usize) -> Result<(), Failure> {
    let sequence = u8::try_from(sequence).map_err(|_| Refusal::Argument)?;
    let mut writer = FrameWriter::begin(sequence, Limit::of::<LIMIT>(), total)?;
    let (mut source, mut radio) = (without_buffer(io::stdin())?, without_buffer(io::stdout())?);
    let (mut part, mut output) = ([0; 48], [0; AT_ONCE]);
    let (mut payload, mut missing) = (&part[..0], total);
    while !writer.has_ended() {
        if payload.is_empty() && missing > 0 {
            payload = read_part(&mut source, &mut part, missing)?;
            missing -= payload.len();
        }
        let written = writer.write(&mut payload, &mut output)?;
        radio.write_all(written).map_err(Failure::to("write"))?;
    }
    Ok(())
}

/// What stands behind the payload is left, and each write goes out by itself.
fn without_buffer(stream: impl AsFd) -> Result<File, Failure> {
    let own = stream.as_fd().try_clone_to_owned();
    Ok(File::from(own.map_err(Failure::to("open a stream"))?))
}

/// The next part of the payload, at most as much as is missing of it.
fn read_part<'p>(
    source: &mut File,
    part: &'p mut [u8],
    missing: usize,
) -> Result<&'p [u8], Failure> {
    let most = missing.min(part.len());
    loop {
        match source.read(&mut part[..most]) {
            Ok(0) => return Err(Failure::Other("the payload ends early".to_string())),
            Ok(count) => return Ok(&part[..count]),
            Err(reason) if reason.kind() == io::ErrorKind::Interrupted => (),
            Err(reason) => return Err(Failure::System("read", reason)),
        }
    }
}
