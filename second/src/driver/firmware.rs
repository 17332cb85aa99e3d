//! Firmware messages: cases worked by hand, all short lists of a few pieces at each depth, random
//! messages, damaged and cut; what is read is written back and read again; the writers on arguments
//! of their own; and every message walked field by field.

use super::control::{value, varint_wrong};
use super::worked::{blank, bytes, wrote};
use super::{damage, edge, text, Plan};
use crate::comparison::{Compared, Comparison};
use crate::control::LAST_FIELD;
use crate::firmware::{COMPONENTS, SIGNATURE};
use crate::implementation::{Call, Operation};
use crate::rng::Rng;

/// The numbers of an ApplyFirmware's row before its components, and of each component.
const AHEAD: usize = 9;
const EACH: usize = 6;
const ROW: usize = AHEAD + EACH * COMPONENTS;
/// The numbers that are told: what goes with a refusal stands behind the row.
const TOLD: usize = ROW + 2;
/// Where the row has the number of components.
const COUNT: usize = 8;

pub fn run(c: &mut Comparison<'_>, rng: &mut Rng, plan: Plan) -> Compared<()> {
    worked(c)?;
    let mut desk = Desk::new();
    short_lists(c, rng, &mut desk, plan)?;
    for number in 0..plan.times(200_000) {
        if number % 4_096 == 0 {
            c.at = format!("firmware message {number}");
        }
        let message = message(rng);
        desk.read_all(c, rng, &message)?;
        desk.walk(c, rng, &message)?;
    }
    c.at = "firmware messages cut at every byte".to_string();
    for _ in 0..plan.times(2_000) {
        let message = message(rng);
        for end in 0..message.len() {
            desk.read_all(c, rng, &message[..end])?;
            desk.walk(c, rng, &message[..end])?;
        }
    }
    c.at = "firmware messages written".to_string();
    for _ in 0..plan.times(100_000) {
        desk.write_segment(c, rng)?;
        desk.write_apply(c, rng)?;
    }
    Ok(())
}

/// Bytes worked out from the words of the change request.
fn worked(c: &mut Comparison<'_>) -> Compared<()> {
    let digits = b"0123456789abcdefABCDEF0123456789abcdefABCDEF0123456789abcdefABCD".to_vec();
    let with_digits = |text: &str| [bytes(text), digits.clone()].concat();

    c.at = "a segment by hand".to_string();
    let plain = with_digits("18 07 22 40");
    let mut call = Call::new(Operation::SegmentWrite)
        .numbers(&[0, 7])
        .inputs(&[&[], &digits])
        .lent(blank(80));
    c.expect(&mut call, 0, |call| wrote(call, &plain))?;
    let taken: [(Vec<u8>, [u64; 8]); 2] = [
        (plain, [0, 0, 0, 7, 4, 64, 0, 0]),
        // The last offset is 2^32, whose low 32 bits are 0.
        (
            with_digits("10 01 10 80 80 80 80 10 22 40"),
            [0, 0, 0, 0, 10, 64, 0, 0],
        ),
    ];
    for (message, told) in taken {
        let mut call = Call::new(Operation::SegmentRead).inputs(&[&message]);
        c.expect(&mut call, 0, |call| call.answer == told)?;
    }
    for (message, returned, field, place) in [
        ("10 01", 50, 2, 0),
        ("", 50, 4, 0),
        ("10 01 22", 30, 0, 0),
        // A string is judged when its field ends, before the profile and before what follows it.
        ("10 01 0A 04 41 E2 82 41 22", 36, 1, 1),
        ("22 01 C3", 36, 4, 0),
    ] {
        let mut call = Call::new(Operation::SegmentRead).inputs(&[&bytes(message)]);
        c.expect(&mut call, returned, |call| {
            call.answer == [0, 0, 0, 0, 0, 0, field, place]
        })?;
    }

    c.at = "an ApplyFirmware by hand".to_string();
    for (restart, count, message) in [(0, 0, "0A 00"), (1, 2, "0A 04 1A 00 1A 00 10 01")] {
        let message = bytes(message);
        let mut row = [0; TOLD];
        (row[0], row[COUNT]) = (restart, count);
        let mut call = Call::new(Operation::ApplyWrite)
            .numbers(&row[..ROW])
            .lent(blank(12));
        c.expect(&mut call, 0, |call| wrote(call, &message))?;
        let mut call = Call::new(Operation::ApplyRead).inputs(&[&message]);
        c.expect(&mut call, 0, |call| call.answer == row)?;
    }
    let mut call = Call::new(Operation::ApplyRead);
    c.expect(&mut call, 0, |call| call.answer == [0; TOLD])?;
    let mut call = Call::new(Operation::ApplyRead).inputs(&[&bytes("10 80 80 80 80 10")]);
    c.expect(&mut call, 0, |call| {
        call.answer[0] == 1 && call.answer[1..] == [0; TOLD - 1]
    })?;
    for (message, returned) in [
        ("0A 00 0A", 34),
        ("0A 00 08", 33),
        // The ninth component's length is missing.
        (
            "0A 11 1A 00 1A 00 1A 00 1A 00 1A 00 1A 00 1A 00 1A 00 1A",
            34,
        ),
        // The outer message goes first.
        ("0A 02 1A 05 0B", 32),
        ("0A 02 1A 05", 30),
    ] {
        let mut call = Call::new(Operation::ApplyRead).inputs(&[&bytes(message)]);
        c.expect(&mut call, returned, |call| call.answer == [0; TOLD])?;
    }

    // The locale is C3 and the component is named 41 80: reading goes through the outer message first,
    // writing in writing order.
    let message = bytes("0A 09 1A 04 12 02 41 80 22 01 C3");
    let mut call = Call::new(Operation::ApplyRead).inputs(&[&message]);
    c.expect(&mut call, 36, |call| {
        call.answer[..ROW] == [0; ROW] && call.answer[ROW..] == [4, 0]
    })?;
    let mut row = [0; ROW];
    (row[4], row[5], row[COUNT]) = (2, 1, 1);
    row[AHEAD + 2] = 2;
    let mut call = Call::new(Operation::ApplyWrite)
        .numbers(&row)
        .inputs(&[&bytes("41 80 C3")])
        .lent(blank(2));
    c.expect(&mut call, 36, |call| call.answer == [0, 2, 1])?;

    c.at = "fields by hand".to_string();
    let message =
        bytes("08 80 01 12 02 41 42 2D 01 02 03 04 F9 FF FF FF 0F 01 02 03 04 05 06 07 08");
    for (place, told) in [
        (0, [1, 1, 0, 128, 0, 0, 3]),
        (3, [1, 2, 2, 0, 5, 2, 7]),
        (7, [1, 5, 5, 0, 8, 4, 12]),
        (12, [1, LAST_FIELD, 1, 0, 17, 8, 25]),
        (25, [0; 7]),
        (26, [0; 7]),
        (u64::MAX, [0; 7]),
    ] {
        let mut call = Call::new(Operation::FieldRead)
            .numbers(&[place])
            .inputs(&[&message]);
        c.expect(&mut call, 0, |call| call.answer == told)?;
    }
    Ok(())
}

/// Pieces that meet each rule of a tag and of a value, most of them known somewhere.
const PIECES: &[&str] = &[
    "0A 00",
    "0A 01 41",
    "0A 02 1A 05",
    "0A",
    "0A 05",
    "08 01",
    "08",
    "10 01",
    "10 80 80 80 80 10",
    "12 00",
    "12",
    "18 07",
    "1A 00",
    "1A",
    "1A 01 0D",
    "22 01 61",
    "22 01 C3",
    "12 02 C3 A9",
    "20 00",
    "2A 00",
    "28 00",
    "32 00",
    "09",
    "0B",
    "00",
    "80",
    "FF FF FF FF FF FF FF FF FF 02",
    "10 FF FF FF FF FF FF FF FF FF 02",
];

/// Every list of up to three pieces, two in a short run: as a segment, as an ApplyFirmware, as
/// firmware_information alone and behind eight components, as a component; the nested ones with
/// their lengths one too small, right and one too large.
fn short_lists(c: &mut Comparison<'_>, rng: &mut Rng, desk: &mut Desk, plan: Plan) -> Compared<()> {
    c.at = "short lists of pieces".to_string();
    let longest = if plan.scale < 1.0 { 2 } else { 3 };
    let pieces: Vec<Vec<u8>> = PIECES.iter().map(|text| bytes(text)).collect();
    let eight = [0x1A, 0x00].repeat(COMPONENTS);
    let mut lists = vec![Vec::new()];
    let mut last = lists.clone();
    for _ in 0..longest {
        last = last
            .iter()
            .flat_map(|list: &Vec<u8>| pieces.iter().map(|piece| [&list[..], piece].concat()))
            .collect();
        lists.extend(last.clone());
    }
    for list in &lists {
        desk.read_all(c, rng, list)?;
        desk.walk(c, rng, list)?;
        for informed in [list.clone(), [&eight[..], list].concat()] {
            for message in near(0x0A, &informed) {
                desk.read_all(c, rng, &message)?;
            }
        }
        for component in near(0x1A, list) {
            for message in near(0x0A, &component) {
                desk.read_all(c, rng, &message)?;
            }
        }
    }
    Ok(())
}

/// A field of these bytes, its length one too small, right and one too large.
fn near(tag: u8, content: &[u8]) -> impl Iterator<Item = Vec<u8>> + '_ {
    let right = content.len() as u8;
    (right.saturating_sub(1)..=right + 1).map(move |length| [&[tag, length], content].concat())
}

/// 64 hexadecimal digits.
pub fn digits(rng: &mut Rng) -> Vec<u8> {
    (0..SIGNATURE)
        .map(|_| *rng.pick(b"0123456789abcdefABCDEF"))
        .collect()
}

/// Mostly 64 digits; else one of them another byte, one too few, one too many, or any bytes.
fn signature(rng: &mut Rng) -> Vec<u8> {
    let mut made = digits(rng);
    match rng.below(12) {
        0 => {
            let place = rng.index(SIGNATURE);
            made[place] = *rng.pick(b"/:@G`g\x00 xX\xB0\xE1\xFF");
        }
        1 => drop(made.pop()),
        2 => made.push(b'0'),
        3 => made = string(rng),
        _ => {}
    }
    made
}

fn string(rng: &mut Rng) -> Vec<u8> {
    let size = match rng.below(40) {
        0 => rng.between(120, 135),
        1..=12 => 0,
        _ => rng.index(12),
    };
    text(rng, size)
}

/// Makes messages in which something is wrong once in `odds` places, nowhere if that is 0.
struct Maker<'r> {
    rng: &'r mut Rng,
    odds: u64,
}

impl Maker<'_> {
    fn wrong(&mut self) -> bool {
        self.odds > 0 && self.rng.once_in(self.odds)
    }

    fn varint(&mut self, value: u64, into: &mut Vec<u8>) {
        varint_wrong(self.rng, 2 * self.odds, value, into);
    }

    fn tag(&mut self, mut field: u64, mut wire: u64, into: &mut Vec<u8>) {
        if self.wrong() {
            wire = self.rng.below(8);
        }
        if self.wrong() {
            field = *self.rng.pick(&[0, 1, 2, 3, LAST_FIELD + 1]);
        }
        self.varint(field << 3 | wire, into);
    }

    fn number(&mut self, field: u64, value: u64) -> Vec<u8> {
        let mut made = Vec::new();
        self.tag(field, 0, &mut made);
        self.varint(value, &mut made);
        made
    }

    fn delimited(&mut self, field: u64, content: &[u8]) -> Vec<u8> {
        let mut made = Vec::new();
        let mut length = content.len() as u64;
        if self.wrong() {
            length = match self.rng.below(3) {
                0 => length + 1,
                1 => length.saturating_sub(1),
                _ => edge(self.rng),
            };
        }
        self.tag(field, 2, &mut made);
        self.varint(length, &mut made);
        made.extend(content);
        made
    }

    /// A field that a message with this last field number does not know.
    fn unknown(&mut self, last: u64) -> Vec<u8> {
        let field = *self
            .rng
            .pick(&[last + 1, last + 2, 9, 15, 16, 2_047, LAST_FIELD]);
        let mut made = Vec::new();
        match self.rng.below(4) {
            0 => {
                let value = value(self.rng);
                return self.number(field, value);
            }
            1 => {
                let content = string(self.rng);
                return self.delimited(field, &content);
            }
            2 => {
                self.tag(field, 1, &mut made);
                made.extend(self.rng.bytes(8));
            }
            _ => {
                self.tag(field, 5, &mut made);
                made.extend(self.rng.bytes(4));
            }
        }
        made
    }

    /// How often a field that may stand once is given: mostly once, sometimes not or twice.
    fn times(&mut self) -> u64 {
        *self.rng.pick(&[0, 1, 1, 1, 1, 2])
    }

    /// The fields behind one another, in the order of their making or in any; components keep
    /// theirs in the former only.
    fn joined(&mut self, mut fields: Vec<Vec<u8>>, last: u64) -> Vec<u8> {
        if self.rng.once_in(4) {
            fields.push(self.unknown(last));
        }
        if self.rng.once_in(2) {
            for place in (1..fields.len()).rev() {
                fields.swap(place, self.rng.index(place + 1));
            }
        }
        fields.concat()
    }

    fn segment(&mut self) -> Vec<u8> {
        let mut fields = Vec::new();
        for _ in 0..self.times() {
            let name = string(self.rng);
            fields.push(self.delimited(1, &name));
        }
        for _ in 0..self.rng.below(3) {
            let offset = match self.rng.below(4) {
                0 => value(self.rng),
                1 => self.rng.draw() << 32,
                _ => 0,
            };
            fields.push(self.number(2, offset));
        }
        for _ in 0..self.times() {
            let size = value(self.rng);
            fields.push(self.number(3, size));
        }
        for _ in 0..self.rng.below(8).clamp(1, 2) {
            let signature = signature(self.rng);
            fields.push(self.delimited(4, &signature));
        }
        self.joined(fields, 4)
    }

    fn component(&mut self) -> Vec<u8> {
        let mut fields = Vec::new();
        for field in 1..=4 {
            for _ in 0..self.times() {
                fields.push(if field % 2 == 1 {
                    let number = value(self.rng);
                    self.number(field, number)
                } else {
                    let text = string(self.rng);
                    self.delimited(field, &text)
                });
            }
        }
        self.joined(fields, 4)
    }

    fn information(&mut self) -> Vec<u8> {
        let mut fields = Vec::new();
        for _ in 0..self.times() {
            let version = value(self.rng);
            fields.push(self.number(1, version));
        }
        for _ in 0..self.times() {
            let name = string(self.rng);
            fields.push(self.delimited(2, &name));
        }
        let count = match self.rng.below(4) {
            0 => self.rng.between(7, 10),
            _ => self.rng.index(4),
        };
        for _ in 0..count {
            let component = if self.rng.once_in(3) {
                Vec::new()
            } else {
                self.component()
            };
            fields.push(self.delimited(3, &component));
        }
        for field in [4, 5] {
            for _ in 0..self.times() {
                let text = string(self.rng);
                fields.push(self.delimited(field, &text));
            }
        }
        self.joined(fields, 5)
    }

    fn apply(&mut self) -> Vec<u8> {
        let mut fields = Vec::new();
        let count = match self.rng.below(20) {
            0 => 2,
            1 => 0,
            _ => 1,
        };
        for _ in 0..count {
            let information = self.information();
            fields.push(self.delimited(1, &information));
        }
        for _ in 0..self.times() {
            let restart = match self.rng.below(3) {
                0 => self.rng.draw() << self.rng.below(64),
                _ => self.rng.below(3),
            };
            fields.push(self.number(2, restart));
        }
        self.joined(fields, 2)
    }
}

fn any_byte(rng: &mut Rng) -> u8 {
    match rng.below(3) {
        0 => rng.byte(),
        1 => *rng.pick(&[0x00, 0x01, 0x7F, 0x80, 0xFF, 0x02]),
        _ => *rng.pick(&[0x08, 0x0A, 0x10, 0x12, 0x18, 0x1A, 0x22, 0x2A, 0x0D, 0x09]),
    }
}

/// A message of either kind: with nothing wrong, a little or a lot, sometimes damaged besides.
fn message(rng: &mut Rng) -> Vec<u8> {
    let odds = *rng.pick(&[0, 0, 20, 100]);
    let kind = rng.below(2);
    let mut maker = Maker { rng, odds };
    let mut message = match kind {
        0 => maker.segment(),
        _ => maker.apply(),
    };
    if rng.once_in(4) {
        damage(rng, &mut message, any_byte);
    }
    message
}

/// A part of `size` bytes.
fn part(rng: &mut Rng, size: usize) -> [u64; 2] {
    let start = rng.index(size + 1);
    let most = if rng.once_in(4) { size - start } else { 20 };
    [start as u64, rng.index(most.min(size - start) + 1) as u64]
}

/// An ApplyFirmware's row whose parts lie in texts of this size. What stands behind its components
/// is anything.
pub fn row(rng: &mut Rng, size: usize) -> [u64; ROW] {
    let mut row = [0; ROW];
    let unsigned = |rng: &mut Rng| (rng.draw() >> 32) >> rng.below(33);
    row[0] = rng.below(2);
    row[1] = unsigned(rng);
    for place in [2, 4, 6] {
        row[place..place + 2].copy_from_slice(&part(rng, size));
    }
    let count = if rng.once_in(3) {
        COMPONENTS
    } else {
        rng.index(COMPONENTS)
    };
    row[COUNT] = count as u64;
    for (index, cells) in row[AHEAD..].chunks_mut(EACH).enumerate() {
        if index < count {
            cells[0] = unsigned(rng);
            cells[1..3].copy_from_slice(&part(rng, size));
            cells[3] = unsigned(rng);
            cells[4..6].copy_from_slice(&part(rng, size));
        } else {
            cells.fill_with(|| edge(rng));
        }
    }
    row
}

/// Where a row has the start of a part, with a number of components.
fn starts(count: u64) -> Vec<usize> {
    let of = |index: usize| [1, 4].map(|place| AHEAD + EACH * index + place);
    [2, 4, 6]
        .into_iter()
        .chain((0..count as usize).flat_map(of))
        .collect()
}

/// Whether two rows tell the same numbers and, of their own bytes, the same texts.
fn same(row: &[u64], bytes: &[u8], other: &[u64], others: &[u8], starts: &[usize]) -> bool {
    let text = |row: &[u64], bytes: &[u8], start: usize| {
        bytes[row[start] as usize..][..row[start + 1] as usize].to_vec()
    };
    (0..row.len()).all(|cell| starts.contains(&cell) || row[cell] == other[cell])
        && starts
            .iter()
            .all(|&start| text(row, bytes, start) == text(other, others, start))
}

/// One call of each kind, kept over many messages.
struct Desk {
    segment_read: Call,
    segment_write: Call,
    apply_read: Call,
    apply_write: Call,
    field_read: Call,
}

impl Desk {
    fn new() -> Desk {
        Desk {
            segment_read: Call::new(Operation::SegmentRead),
            segment_write: Call::new(Operation::SegmentWrite),
            apply_read: Call::new(Operation::ApplyRead),
            apply_write: Call::new(Operation::ApplyWrite),
            field_read: Call::new(Operation::FieldRead),
        }
    }

    /// Reads a message as both kinds. Whatever a reader tells the writer takes, in no more bytes
    /// than were read but for an absent firmware_information, and it reads back.
    fn read_all(&mut self, c: &mut Comparison<'_>, rng: &mut Rng, message: &[u8]) -> Compared<()> {
        self.segment_read.inputs[0] = message.to_vec();
        if c.run(&mut self.segment_read)? == 0 {
            let told = self.segment_read.answer.clone();
            let text = |start: usize| &message[told[start] as usize..][..told[start + 1] as usize];
            self.segment_write.numbers = told[2..4].to_vec();
            self.segment_write.inputs = vec![text(0).to_vec(), text(4).to_vec()];
            let again = written(c, rng, &mut self.segment_write, message.len())?;
            self.segment_read.inputs[0].clone_from(&again);
            c.expect(&mut self.segment_read, 0, |call| {
                same(&told, message, &call.answer, &again, &[0, 4])
            })?;
        }
        self.apply_read.inputs[0] = message.to_vec();
        if c.run(&mut self.apply_read)? == 0 {
            let told = self.apply_read.answer.clone();
            self.apply_write.numbers = told[..ROW].to_vec();
            self.apply_write.inputs[0] = message.to_vec();
            let again = written(c, rng, &mut self.apply_write, message.len() + 2)?;
            self.apply_read.inputs[0].clone_from(&again);
            let starts = starts(told[COUNT]);
            c.expect(&mut self.apply_read, 0, |call| {
                same(&told, message, &call.answer, &again, &starts)
            })?;
        }
        Ok(())
    }

    /// Walks a message field by field, up to its end or its first refusal, and reads at a place by
    /// chance.
    fn walk(&mut self, c: &mut Comparison<'_>, rng: &mut Rng, message: &[u8]) -> Compared<()> {
        let call = &mut self.field_read;
        call.inputs[0] = message.to_vec();
        call.numbers[0] = 0;
        while c.run(call)? == 0 && call.answer[0] == 1 {
            let [_, number, kind, _, start, length, next] = call.answer[..] else {
                panic!("seven numbers")
            };
            let place = call.numbers[0];
            let lies = kind == 0 || place < start && start + length == next;
            let holds = (1..=LAST_FIELD).contains(&number)
                && place < next
                && next <= message.len() as u64
                && lies;
            c.hold(holds, "a field lies in its message", call)?;
            call.numbers[0] = next;
        }
        call.numbers[0] = match rng.below(8) {
            0 => edge(rng),
            _ => rng.below(message.len() as u64 + 2),
        };
        c.run(call)?;
        Ok(())
    }

    /// The writer of a segment on arguments at and past their ranges.
    fn write_segment(&mut self, c: &mut Comparison<'_>, rng: &mut Rng) -> Compared<()> {
        let offset = match rng.below(4) {
            0 => edge(rng),
            _ => 0,
        };
        let (size, name, signature) = (value(rng), string(rng), signature(rng));
        let most = name.len() + signature.len() + 20;
        let call = &mut self.segment_write;
        call.numbers = vec![offset, size];
        call.inputs = vec![name, signature];
        call.lent.clear();
        call.lent.resize(rng.index(most), 0x55);
        if matches!(c.run(call)?, 0 | 14) {
            let told = [0, call.inputs[0].len() as u64, 0, size, 0, 64, 0, 0];
            let given = call.inputs.clone();
            let message = written(c, rng, call, most)?;
            self.segment_read.inputs[0].clone_from(&message);
            c.expect(&mut self.segment_read, 0, |call| {
                let text = |start: usize| {
                    &message[call.answer[start] as usize..][..call.answer[start + 1] as usize]
                };
                (0..8).all(|cell| [0, 4].contains(&cell) || call.answer[cell] == told[cell])
                    && text(0) == given[0]
                    && text(4) == given[1]
            })?;
        }
        Ok(())
    }

    /// The writer of an ApplyFirmware on arguments at and past their ranges.
    fn write_apply(&mut self, c: &mut Comparison<'_>, rng: &mut Rng) -> Compared<()> {
        let size = match rng.below(60) {
            0 => rng.between(16_380, 16_390),
            1..=3 => rng.index(700),
            4..=6 => 0,
            _ => rng.index(40),
        };
        let texts = text(rng, size);
        let size = texts.len();
        let mut row = row(rng, size);
        if rng.once_in(3) {
            let place = rng.index(ROW);
            row[place] = match rng.below(4) {
                0 => edge(rng),
                1 => size as u64 + 1,
                2 => size as u64,
                _ => 2,
            };
        }
        if rng.once_in(8) {
            // A part that ends at the texts' end, or one byte behind it.
            let starts = starts(row[COUNT].min(COMPONENTS as u64));
            let start = *rng.pick(&starts);
            row[start] = rng.below(size as u64 + 1);
            row[start + 1] = size as u64 - row[start] + rng.below(2);
        }
        let call = &mut self.apply_write;
        call.numbers = row.to_vec();
        call.inputs[0].clone_from(&texts);
        let most = AHEAD * 8
            + COMPONENTS * 32
            + (0..ROW - 1)
                .filter(|cell| starts(COMPONENTS as u64).contains(cell))
                .map(|start| row[start + 1].min(size as u64) as usize)
                .sum::<usize>();
        call.lent.clear();
        call.lent.resize(rng.index(most), 0x55);
        if matches!(c.run(call)?, 0 | 14) {
            let message = written(c, rng, call, most)?;
            let count = row[COUNT];
            let ahead = AHEAD + EACH * count as usize;
            self.apply_read.inputs[0].clone_from(&message);
            c.expect(&mut self.apply_read, 0, |call| {
                let (told, none) = call.answer.split_at(ahead);
                same(&row[..ahead], &texts, told, &message, &starts(count))
                    && none.iter().all(|&number| number == 0)
            })?;
        }
        Ok(())
    }
}

/// What a writer's call writes into an output of `most` bytes, which are enough; sometimes also into
/// outputs that are too small or just fit.
fn written(
    c: &mut Comparison<'_>,
    rng: &mut Rng,
    call: &mut Call,
    most: usize,
) -> Compared<Vec<u8>> {
    call.lent.clear();
    call.lent.resize(most, 0x77);
    c.expect(call, 0, |_| true)?;
    let written = call.answer[0] as usize;
    let message = call.lent[..written].to_vec();
    if rng.once_in(8) && written > 0 {
        for size in [rng.index(written), written - 1, written] {
            call.lent.clear();
            call.lent.resize(size, 0x66);
            let wanted = if size < written { 14 } else { 0 };
            c.expect(call, wanted, |_| true)?;
        }
    }
    Ok(message)
}
