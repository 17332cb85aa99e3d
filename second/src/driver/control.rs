//! Control messages: random ones of known and unknown fields, damaged and truncated; what is read
//! is written back and read again; and the writers on arguments of their own.

use super::{damage, edge, text, Plan};
use crate::comparison::{Compared, Comparison};
use crate::control::LAST_FIELD;
use crate::implementation::{Call, Operation};
use crate::rng::Rng;

pub fn run(c: &mut Comparison<'_>, rng: &mut Rng, plan: Plan) -> Compared<()> {
    let mut desk = Desk::new();
    for number in 0..plan.times(1_000_000) {
        if number % 4_096 == 0 {
            c.at = format!("control message {number}");
        }
        let message = message(rng);
        desk.read_all(c, rng, &message)?;
    }
    c.at = "control messages cut at every byte".to_string();
    for _ in 0..plan.times(15_000) {
        let message = message(rng);
        for end in 0..message.len() {
            desk.read_all(c, rng, &message[..end])?;
        }
    }
    c.at = "control messages written".to_string();
    for _ in 0..plan.times(300_000) {
        desk.write_any(c, rng)?;
    }
    Ok(())
}

/// A value at an edge of its varint.
pub(super) fn value(rng: &mut Rng) -> u64 {
    match rng.below(4) {
        0 => rng.below(4),
        1 => rng.below(200),
        2 => edge(rng),
        _ => rng.draw() >> rng.below(64),
    }
}

/// A varint: mostly the shortest, sometimes longer than needed, rarely one that no number has.
fn varint(rng: &mut Rng, value: u64, into: &mut Vec<u8>) {
    varint_wrong(rng, 60, value, into);
}

/// A varint that no number has once in `odds`, never if that is 0.
pub(super) fn varint_wrong(rng: &mut Rng, odds: u64, mut value: u64, into: &mut Vec<u8>) {
    let mut made = Vec::new();
    while value >= 0x80 {
        made.push(value as u8 | 0x80);
        value >>= 7;
    }
    made.push(value as u8);
    if rng.once_in(12) {
        // Longer than needed, up to ten bytes.
        let size = rng.between(made.len(), 10);
        longer(&mut made, size);
    }
    if odds > 0 && rng.once_in(odds) {
        // A tenth byte above 01, or an eleventh.
        longer(&mut made, 10);
        made[9] = *rng.pick(&[0x02, 0x7F, 0x80, 0x81, 0xFF, 0x01, 0x00]);
        if made[9] >= 0x80 {
            made.push(rng.below(3) as u8);
        }
    }
    into.extend(made);
}

/// The same number in `size` bytes.
fn longer(made: &mut Vec<u8>, size: usize) {
    while made.len() < size {
        *made.last_mut().expect("one byte at least") |= 0x80;
        made.push(0x00);
    }
}

fn field(rng: &mut Rng) -> u64 {
    match rng.below(40) {
        0..=9 => 1,
        10..=15 => 2,
        16..=23 => 3,
        24..=27 => 4,
        28..=32 => 9,
        33 => 0,
        34 => LAST_FIELD,
        35 => LAST_FIELD + 1,
        36 => rng.draw() >> rng.between(3, 63),
        37 => rng.below(LAST_FIELD) + 1,
        _ => rng.below(20),
    }
}

fn content(rng: &mut Rng, depth: u64) -> Vec<u8> {
    let mut content = Vec::new();
    match rng.below(6) {
        0 => {}
        1 => {
            let size = rng.index(12);
            content = text(rng, size);
        }
        2 | 3 if depth > 0 => content = fields(rng, depth - 1),
        4 => {
            let size = if rng.once_in(40) {
                rng.between(100, 300)
            } else {
                3
            };
            content = text(rng, size);
        }
        _ => {
            // A packed list.
            let most = if rng.once_in(4) { 11 } else { 4 };
            for _ in 0..rng.index(most) {
                let entry = value(rng);
                varint(rng, entry, &mut content);
            }
            if rng.once_in(12) {
                content.pop();
            }
            if rng.once_in(24) {
                content.push(0x80);
            }
        }
    }
    content
}

/// A few fields, one after the other.
fn fields(rng: &mut Rng, depth: u64) -> Vec<u8> {
    let mut made = Vec::new();
    let most = if rng.once_in(6) { 12 } else { 5 };
    for _ in 0..rng.index(most) {
        let field = field(rng);
        let wire = match (field, rng.below(16)) {
            (_, 0) => *rng.pick(&[3, 4, 6, 7]),
            (_, 1) => 1,
            (_, 2) => 5,
            (_, 3) => 0,
            (_, 4) => 2,
            (1, _) => *rng.pick(&[0, 0, 2]),
            (3, _) => *rng.pick(&[0, 0, 2]),
            (2 | 4 | 9, _) => *rng.pick(&[2, 2, 2, 0]),
            _ => *rng.pick(&[0, 1, 2, 2, 5]),
        };
        varint(rng, field << 3 | wire, &mut made);
        match wire {
            0 => {
                let value = value(rng);
                varint(rng, value, &mut made);
            }
            1 => made.extend(rng.bytes(8)),
            5 => made.extend(rng.bytes(4)),
            2 => {
                let content = content(rng, depth);
                let length = match rng.below(40) {
                    0 => content.len() as u64 + 1,
                    1 => (content.len() as u64).saturating_sub(1),
                    2 => edge(rng),
                    _ => content.len() as u64,
                };
                varint(rng, length, &mut made);
                made.extend(content);
            }
            _ => {}
        }
    }
    made
}

fn any_byte(rng: &mut Rng) -> u8 {
    match rng.below(3) {
        0 => rng.byte(),
        1 => *rng.pick(&[0x00, 0x01, 0x7F, 0x80, 0xFF, 0x02]),
        _ => *rng.pick(&[0x08, 0x0A, 0x10, 0x12, 0x18, 0x1A, 0x22, 0x4A, 0x0D, 0x09]),
    }
}

/// About eight transports, packed and not, with other fields between, often cut near the end.
fn transports(rng: &mut Rng) -> Vec<u8> {
    let mut made = Vec::new();
    let mut left = rng.between(7, 10);
    while left > 0 {
        if rng.once_in(8) {
            made.extend([0x28, 0x01]);
        }
        let count = if rng.once_in(2) {
            rng.between(0, left)
        } else {
            1
        };
        if count == 1 && rng.once_in(2) {
            made.push(0x18);
            let entry = value(rng);
            varint(rng, entry, &mut made);
        } else {
            let mut list = Vec::new();
            for _ in 0..count {
                let entry = value(rng);
                varint(rng, entry, &mut list);
            }
            if rng.once_in(8) {
                list.pop();
            }
            made.push(0x1A);
            varint(rng, list.len() as u64, &mut made);
            made.extend(list);
        }
        left -= count;
    }
    if rng.once_in(3) {
        made.truncate(made.len() - rng.index(made.len().min(4)));
    }
    made
}

/// A message: mostly fields, sometimes anything, often damaged.
pub(super) fn message(rng: &mut Rng) -> Vec<u8> {
    let mut message = match rng.below(20) {
        0 => {
            let size = rng.index(14);
            (0..size).map(|_| any_byte(rng)).collect()
        }
        1 => transports(rng),
        _ => fields(rng, 2),
    };
    if rng.once_in(4) {
        damage(rng, &mut message, any_byte);
    }
    message
}

/// One call of each kind, kept over many messages.
struct Desk {
    readers: [Call; 4],
    writers: [Call; 4],
}

impl Desk {
    fn new() -> Desk {
        Desk {
            readers: [
                Operation::EnvelopeRead,
                Operation::ResponseRead,
                Operation::InformationRead,
                Operation::FeaturesRead,
            ]
            .map(Call::new),
            writers: [
                Operation::EnvelopeWrite,
                Operation::ResponseWrite,
                Operation::InformationWrite,
                Operation::FeaturesWrite,
            ]
            .map(Call::new),
        }
    }

    /// Reads a message as each of the four kinds, and writes back what was told.
    fn read_all(&mut self, c: &mut Comparison<'_>, rng: &mut Rng, message: &[u8]) -> Compared<()> {
        for kind in 0..4 {
            self.readers[kind].inputs[0].clear();
            self.readers[kind].inputs[0].extend_from_slice(message);
            if c.run(&mut self.readers[kind])? == 0 {
                self.write_back(c, rng, kind)?;
            }
        }
        Ok(())
    }

    /// Writes what the reader of this kind has told, and reads it again: numbers and bytes are the
    /// same, places aside.
    fn write_back(&mut self, c: &mut Comparison<'_>, rng: &mut Rng, kind: usize) -> Compared<()> {
        let reader = &self.readers[kind];
        let told = reader.answer.clone();
        let message = reader.inputs[0].clone();
        let part = |start: u64, length: u64| message[start as usize..][..length as usize].to_vec();
        let (numbers, inputs) = match kind {
            0 => {
                let [command, payload, error_code, field, start, length] = told[..] else {
                    panic!("six numbers")
                };
                (
                    vec![command, payload, error_code, field],
                    vec![part(start, length)],
                )
            }
            1 => (vec![told[0], told[1]], vec![part(told[2], told[3])]),
            2 => (
                told[7..7 + told[6] as usize].to_vec(),
                vec![
                    part(told[0], told[1]),
                    part(told[2], told[3]),
                    part(told[4], told[5]),
                ],
            ),
            _ => (told.clone(), Vec::new()),
        };
        let writer = &mut self.writers[kind];
        writer.numbers = numbers;
        writer.inputs = inputs;
        let spare = rng.index(3);
        writer.lent.resize(message.len() + 80 + spare, 0x77);
        // All that is read can be written: the output is longer than the message and ten bytes for
        // each number.
        c.expect(writer, 0, |_| true)?;
        let written = writer.answer[0] as usize;
        if rng.once_in(8) && written > 0 {
            // The same into an output that is too small, and one that just fits.
            for size in [rng.index(written), written - 1, written] {
                writer.lent.resize(size, 0x66);
                let wanted = if size < written { 14 } else { 0 };
                c.expect(writer, wanted, |_| true)?;
            }
        }
        let again = writer.lent[..written].to_vec();
        let mut reader = Call::new(self.readers[kind].operation).inputs(&[&again]);
        let places: &[usize] = match kind {
            0 => &[4],
            1 => &[2],
            2 => &[0, 2, 4],
            _ => &[],
        };
        c.expect(&mut reader, 0, |call| {
            let same = |cell: usize| places.contains(&cell) || call.answer[cell] == told[cell];
            let bytes = |cell: &usize| {
                let [start, length] = [call.answer[*cell], call.answer[cell + 1]];
                again[start as usize..][..length as usize] == part(told[*cell], told[cell + 1])
            };
            (0..told.len()).all(same) && places.iter().all(bytes)
        })
    }

    /// A writer on arguments at and past their ranges.
    fn write_any(&mut self, c: &mut Comparison<'_>, rng: &mut Rng) -> Compared<()> {
        let kind = rng.index(4);
        let writer = &mut self.writers[kind];
        let signed = |rng: &mut Rng| match rng.below(3) {
            0 => i64::from(rng.draw() as i32 >> rng.below(32)) as u64,
            1 => *rng.pick(&[0, 1, 3, 20, 28, 94, 95, 127, 128]),
            _ => edge(rng),
        };
        let number = |rng: &mut Rng| match rng.below(3) {
            0 => rng.below(20),
            1 => rng.below(LAST_FIELD) + 1,
            _ => edge(rng),
        };
        let string = |rng: &mut Rng| {
            let size = match rng.below(200) {
                0 => rng.between(4_090, 5_000),
                1..=9 => rng.between(120, 135),
                10..=60 => 0,
                _ => rng.index(20),
            };
            text(rng, size)
        };
        match kind {
            0 => {
                let payload = if rng.once_in(16) {
                    edge(rng)
                } else {
                    rng.below(3)
                };
                writer.numbers = vec![signed(rng), payload, signed(rng), number(rng)];
                writer.inputs = vec![string(rng)];
            }
            1 => {
                writer.numbers = vec![signed(rng), number(rng)];
                writer.inputs = vec![string(rng)];
            }
            2 => {
                let count = if rng.once_in(3) {
                    rng.index(11)
                } else {
                    rng.index(4)
                };
                let usual = rng.once_in(2);
                writer.numbers = (0..count)
                    .map(|_| if usual { rng.below(3) } else { signed(rng) })
                    .collect();
                writer.inputs = vec![string(rng), string(rng), string(rng)];
            }
            _ => {
                writer.numbers = vec![value(rng), value(rng)];
                writer.inputs = Vec::new();
            }
        }
        let needed = writer
            .inputs
            .iter()
            .map(|bytes| bytes.len() + 6)
            .sum::<usize>();
        let size = match rng.below(4) {
            0 => rng.index(needed + 24),
            _ => needed + rng.index(130),
        };
        writer.lent.resize(size, 0x55);
        let returned = c.run(writer)?;
        if returned == 0 {
            let written = writer.answer[0] as usize;
            let message = writer.lent[..written].to_vec();
            for size in [written.saturating_sub(1), written] {
                writer.lent.resize(size, 0x44);
                c.run(writer)?;
            }
            self.readers[kind].inputs[0] = message;
            c.expect(&mut self.readers[kind], 0, |_| true)?;
        }
        Ok(())
    }
}
