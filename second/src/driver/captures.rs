//! Captures: bytes as they come over the air, in files, with the answers expected beside them.
//!
//! `NAME.hex` holds bytes as hex pairs: each line is one packet (Low Energy), or what one callback
//! hands over of the stream (Classic). `NAME.expected` holds one line for each answer; its first
//! line is `low energy` or `classic`. In both files a line that begins with a space continues the
//! one before it, and empty lines and lines that begin with `#` say nothing.
//!
//! Low Energy, after each packet:
//! `held: stream S, id I, H of T bytes` (H and T as the state has them), `finished: stream S, id I, T
//! bytes, ACK wanted` (or `no ACK wanted`) and then `message: HEX`, `ACK: stream S, id I, sequence Q`,
//! `NACK: stream S, id I, sequence Q`, or `refused: N`; a replaced transaction adds `, one replaced`.
//! Where an ACK is wanted, `answered: HEX` follows the message: the ACK that was written, with the
//! packet's place in the capture, modulo 16, for its sequence.
//!
//! Classic, in each flush: `frame: ends at P, sequence Q, payload HEX` and `refused: N at P`, with
//! places counted over all flushes, and after the flush `flushed: inside` or `flushed: outside`.
//!
//! A line `written: room R, stream S, id I, sequence Q, ACK A` says that our writer gives the
//! packets of the message just finished; `written: sequence Q` that it gives the frame just ended.

use super::judged;
use super::packets;
use super::reports;
use super::worked::{bytes, written};
use crate::classic::{self, LIMIT};
use crate::comparison::{hex, Compared, Comparison, Difference};
use crate::implementation::{Call, Operation, Slot};
use crate::low_energy::{self, Stream};
use std::fs;
use std::path::Path;

/// One capture, read from its two files.
#[derive(Clone, Debug)]
pub struct Capture {
    pub name: String,
    pub chunks: Vec<Vec<u8>>,
    pub expected: Vec<String>,
}

/// The lines of a file that say something, with their continuations joined.
fn lines(text: &str) -> Vec<String> {
    let mut lines: Vec<String> = Vec::new();
    for line in text.lines().filter(|line| !line.starts_with('#')) {
        let words = line.split_whitespace().collect::<Vec<_>>().join(" ");
        match (words.is_empty(), line.starts_with(' '), lines.last_mut()) {
            (true, _, _) => {}
            (false, true, Some(before)) => *before += &format!(" {words}"),
            _ => lines.push(words),
        }
    }
    lines
}

impl Capture {
    pub fn parse(name: &str, hex: &str, expected: &str) -> Capture {
        Capture {
            name: name.to_string(),
            chunks: lines(hex).iter().map(|line| bytes(line)).collect(),
            expected: lines(expected),
        }
    }

    /// Whether its chunks are packets.
    pub fn is_low_energy(&self) -> bool {
        self.expected
            .first()
            .is_some_and(|kind| kind == "low energy")
    }
}

/// All captures of a folder, in the order of their names.
pub fn load(folder: &Path) -> Result<Vec<Capture>, String> {
    let failed = |path: &Path, error| format!("{}: {error}", path.display());
    let mut paths: Vec<_> = fs::read_dir(folder)
        .map_err(|error| failed(folder, error))?
        .filter_map(|entry| entry.ok().map(|entry| entry.path()))
        .filter(|path| path.extension().is_some_and(|end| end == "hex"))
        .collect();
    paths.sort();
    if paths.is_empty() {
        return Err(format!("{}: no captures", folder.display()));
    }
    paths
        .iter()
        .map(|path| {
            let read = |path: &Path| fs::read_to_string(path).map_err(|error| failed(path, error));
            let name = path.file_stem().expect("a file").to_string_lossy();
            let hex = read(path)?;
            let expected = read(&path.with_extension("expected"))?;
            Ok(Capture::parse(&name, &hex, &expected))
        })
        .collect()
}

/// Gives a capture to every implementation and holds the answers to the expected ones.
pub fn run(c: &mut Comparison<'_>, capture: &Capture) -> Compared<()> {
    c.at = format!("capture {}", capture.name);
    let (kind, expected) = capture.expected.split_first().expect("a kind");
    let mut script = Script {
        name: &capture.name,
        left: expected,
    };
    match kind.as_str() {
        "low energy" => low_energy(c, capture, &mut script)?,
        "classic" => classic(c, capture, &mut script)?,
        other => return Err(script.wrong("low energy, or classic", other)),
    }
    match script.left {
        [] if capture.is_low_energy() => {
            judged::judge_capture(c, capture)?;
            reports::report_capture(c, capture)
        }
        [] => Ok(()),
        [line, ..] => Err(script.wrong(line, "no more answers")),
    }
}

/// What is still expected.
struct Script<'s> {
    name: &'s str,
    left: &'s [String],
}

impl Script<'_> {
    fn wrong(&self, expected: &str, got: &str) -> Box<Difference> {
        let name = self.name;
        Box::new(Difference(format!(
            "capture {name}:\n  expected {expected}\n  got      {got}\n"
        )))
    }

    /// The next answer has to be this one.
    fn next(&mut self, got: &str) -> Compared<()> {
        match self.left.split_first() {
            Some((line, left)) if line == got => {
                self.left = left;
                Ok(())
            }
            Some((line, _)) => Err(self.wrong(line, got)),
            None => Err(self.wrong("no more answers", got)),
        }
    }

    /// The numbers of a line `written: ...`, if one comes next.
    fn written(&mut self) -> Option<(String, Vec<u64>)> {
        let (line, left) = self.left.split_first()?;
        let rest = line.strip_prefix("written: ")?;
        self.left = left;
        let numbers = rest
            .split(|letter: char| !letter.is_ascii_digit())
            .filter_map(|word| word.parse().ok())
            .collect();
        Some((line.clone(), numbers))
    }
}

fn low_energy(c: &mut Comparison<'_>, capture: &Capture, script: &mut Script<'_>) -> Compared<()> {
    let mut call = Call::new(Operation::ReceiverAccept)
        .state(&packets::idle(LIMIT))
        .lent(vec![0xCC; low_energy::buffer(LIMIT)]);
    // The packets of each stream since its last first packet.
    let mut since: [Vec<Vec<u8>>; 16] = Default::default();
    for (place, packet) in capture.chunks.iter().enumerate() {
        let stream = packet.first().map_or(15, |&byte| usize::from(byte >> 4));
        if packet.get(1).is_some_and(|byte| byte >> 2 & 3 == 0) {
            since[stream].clear();
        }
        since[stream].push(packet.clone());
        call.inputs[0].clone_from(packet);
        call.numbers[0] = place as u64 % 16;
        call.reply = vec![0xCC; 8];
        let returned = c.run(&mut call)?;
        let answered = call.reply != [0xCC; 8];
        c.hold(!answered || returned == 0, "nothing is answered", &call)?;
        if returned != 0 {
            script.next(&format!("refused: {returned}"))?;
            continue;
        }
        let [outcome, number, id, sequence, total, ack, replaced, place] = call.answer[..] else {
            panic!("eight numbers")
        };
        // The transactions of a stream come one after the other: its first slot has them all.
        let first = Stream::of(number).expect("a known stream").places().start;
        let right = if outcome > 1 { 0 } else { first as u64 };
        c.hold(place == right, "the slot's place", &call)?;
        c.hold(answered == (ack == 1), "an ACK that is wanted", &call)?;
        let noted = if replaced == 1 { ", one replaced" } else { "" };
        let who = format!("stream {number}, id {id}");
        match outcome {
            0 => {
                let Slot { total, held, .. } = call.slots[first];
                script.next(&format!("held: {who}, {held} of {total} bytes{noted}"))?;
            }
            1 => {
                let wish = if ack == 1 {
                    "ACK wanted"
                } else {
                    "no ACK wanted"
                };
                script.next(&format!("finished: {who}, {total} bytes, {wish}{noted}"))?;
                let start = first * LIMIT as usize;
                let message = call.lent[start..start + total as usize].to_vec();
                script.next(format!("message: {}", hex(&message)).trim_end())?;
                if answered {
                    let (ack, rest) = call.reply.split_at(6);
                    c.hold(rest == [0xCC; 2], "six bytes are written", &call)?;
                    script.next(&format!("answered: {}", hex(ack)))?;
                }
                if let Some((line, numbers)) = script.written() {
                    let [room, stream, id, sequence, ack] = numbers[..] else {
                        return Err(script.wrong(&line, "five numbers are needed"));
                    };
                    let made = written(c, room, [stream, id, sequence, ack], &message)?;
                    if made != since[number as usize] {
                        let got: Vec<String> = made.iter().map(|packet| hex(packet)).collect();
                        return Err(script.wrong(&line, &got.join("\n           ")));
                    }
                }
            }
            2 => script.next(&format!("ACK: {who}, sequence {sequence}"))?,
            3 => script.next(&format!("NACK: {who}, sequence {sequence}"))?,
            other => return Err(script.wrong("an outcome", &other.to_string())),
        }
    }
    Ok(())
}

fn classic(c: &mut Comparison<'_>, capture: &Capture, script: &mut Script<'_>) -> Compared<()> {
    let stream = capture.chunks.concat();
    let empty = [LIMIT, 0, 0, 0];
    let buffer = vec![0xCC; classic::buffer(LIMIT)];
    let mut feed = Call::new(Operation::ExtractorFeed)
        .state(&empty)
        .lent(buffer.clone());
    let mut place = 0;
    // What feeds decide, to be met again in steps.
    let mut decided = Vec::new();
    for chunk in &capture.chunks {
        let mut rest = &chunk[..];
        loop {
            feed.inputs[0] = rest.to_vec();
            let returned = c.run(&mut feed)?;
            let [outcome, used, sequence, length] = feed.answer[..] else {
                panic!("four numbers")
            };
            rest = &rest[used as usize..];
            place += used as usize;
            if returned == 0 && outcome == 0 {
                break;
            }
            let line = told(returned, place - 1, sequence, &feed.lent[..length as usize]);
            script.next(&line)?;
            decided.push(line);
            if let Some((line, mut numbers)) = script.written() {
                numbers.push(LIMIT);
                let payload = &feed.lent[..length as usize];
                let mut writer = Call::new(Operation::FrameWrite)
                    .numbers(&numbers)
                    .inputs(&[payload])
                    .lent(vec![0; 2 * payload.len() + 9]);
                let returned = c.run(&mut writer)?;
                let made = &writer.lent[..writer.answer[0] as usize];
                if returned != 0 || !stream[..place].ends_with(made) {
                    return Err(script.wrong(&line, &hex(made)));
                }
            }
        }
        let side = if feed.state[1] == 0 {
            "outside"
        } else {
            "inside"
        };
        script.next(&format!("flushed: {side}"))?;
    }
    // The same bytes one by one decide the same.
    let mut step = Call::new(Operation::ExtractorStep)
        .state(&empty)
        .lent(buffer);
    let mut again = Script {
        name: script.name,
        left: &decided,
    };
    for (place, &byte) in stream.iter().enumerate() {
        step.numbers[0] = u64::from(byte);
        let returned = c.run(&mut step)?;
        let [outcome, sequence, length] = step.answer[..] else {
            panic!("three numbers")
        };
        if returned != 0 || outcome == 2 {
            let payload = &step.lent[..length as usize];
            again.next(&told(returned, place, sequence, payload))?;
        }
    }
    match again.left {
        [] => Ok(()),
        [line, ..] => Err(again.wrong(line, "nothing in steps")),
    }
}

/// The line of a byte that decides.
fn told(returned: u64, place: usize, sequence: u64, payload: &[u8]) -> String {
    let line = match returned {
        0 => {
            let payload = hex(payload);
            format!("frame: ends at {place}, sequence {sequence}, payload {payload}")
        }
        _ => format!("refused: {returned} at {place}"),
    };
    line.trim_end().to_string()
}
