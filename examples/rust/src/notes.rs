//! How a box says what it has to say.

use crate::system;
use std::fmt;
use std::io::{self, ErrorKind, Write};
use std::os::fd::AsFd;
use std::sync::Mutex;

/// The notes of a kind and number since the last record or other line, and how many there were after the first.
struct Counted {
    kind: &'static str,
    number: u64,
    more: u64,
}

const KINDS: usize = 8;
static COUNTED: Mutex<Vec<Counted>> = Mutex::new(Vec::new());

/// A line on standard error. That it cannot be written stops nothing.
pub fn note(line: impl fmt::Display) {
    tell_counted();
    write_note(line);
}

/// A line of KIND and NUMBER on standard error: told at once, and then no more until the next record or another line, which is
/// preceded by how many more there were. A line that is jammed all night must not fill the disk with notes.
pub fn note_number(kind: &'static str, number: u64) {
    let mut counted = COUNTED.lock().unwrap();
    let same = |one: &&mut Counted| one.kind == kind && one.number == number;
    if let Some(one) = counted.iter_mut().find(same) {
        one.more += 1;
        return;
    }
    if counted.len() == KINDS {
        tell(&mut counted);
    }
    counted.push(Counted {
        kind,
        number,
        more: 0,
    });
    write_note(format_args!("{kind} {number}"));
}

pub fn tell_counted() {
    tell(&mut COUNTED.lock().unwrap());
}

fn tell(counted: &mut Vec<Counted>) {
    for Counted { kind, number, more } in counted.drain(..).filter(|one| one.more > 0) {
        write_note(format_args!("{kind} {number}, {more} more"));
    }
}

fn write_note(line: impl fmt::Display) {
    let _ = write_line(&mut io::stderr(), &format!("{line}\n"));
}

/// An output that would have to be waited for gets no line: a reader that has stopped reading must not stop the box.
pub fn write_line(to: &mut (impl Write + AsFd), line: &str) -> io::Result<()> {
    let mut rest = line.as_bytes();
    while !rest.is_empty() {
        if !system::is_ready(to, 0) {
            return Err(ErrorKind::WouldBlock.into());
        }
        match to.write(rest) {
            Ok(count) => rest = &rest[count..],
            Err(why) if why.kind() == ErrorKind::Interrupted => (),
            Err(why) => return Err(why),
        }
    }
    Ok(())
}
