//! Outboxes of both versions: built record by record, damaged, cut at every byte, walked, and
//! appended to after.

use super::{edge, Plan};
use crate::comparison::{Compared, Comparison};
use crate::implementation::{Call, Operation};
use crate::outbox::{Version, ONE, TWO};
use crate::rng::Rng;

pub fn run(c: &mut Comparison<'_>, rng: &mut Rng, plan: Plan) -> Compared<()> {
    let mut desk = Desk::new();
    for number in 0..plan.times(20_000) {
        if number % 256 == 0 {
            c.at = format!("outbox {number}");
        }
        let version = *rng.pick(&[ONE, TWO]);
        let file = desk.build(c, rng, version, &[])?;
        desk.cut_everywhere(c, rng, &file, 1)?;
        let broken = broken(rng, file);
        desk.cut_everywhere(c, rng, &broken, 1)?;
    }
    c.at = "outboxes with long records".to_string();
    for _ in 0..plan.times(20) {
        // As long as each version allows, and of 02 some that 01 just allows or does not.
        let kinds = [
            (ONE, 7, vec![ONE.payload - rng.index(3)]),
            (TWO, 997, vec![TWO.payload - rng.index(3)]),
            (TWO, 97, vec![4_095 + rng.index(4), 4_095 + rng.index(4)]),
        ];
        for (version, stride, long) in kinds {
            let file = desk.build(c, rng, version, &long)?;
            desk.cut_everywhere(c, rng, &file, stride)?;
            let broken = broken(rng, file);
            desk.cut_everywhere(c, rng, &broken, stride)?;
        }
    }
    Ok(())
}

/// The same outbox with one or two wrong bytes, in versions, lengths and streams above all.
fn broken(rng: &mut Rng, mut file: Vec<u8>) -> Vec<u8> {
    for _ in 0..rng.between(1, 2) {
        let width = Version::of(&file).map_or(2, |version| version.width);
        // The places of the lengths, as long as the bytes are whole.
        let mut places = vec![1];
        while let Some(field) = file
            .get(places[places.len() - 1]..)
            .and_then(|rest| rest.get(..width))
        {
            let length = field
                .iter()
                .fold(0, |number, byte| number << 8 | usize::from(*byte));
            places.push(places[places.len() - 1] + width + length);
        }
        places.pop();
        match (rng.below(6), places.is_empty()) {
            (0, _) if !file.is_empty() => file[0] = *rng.pick(&[0, 1, 2, 3, 0xFF]),
            (1 | 2, false) => {
                let place = *rng.pick(&places);
                let lengths = [
                    0,
                    1,
                    2,
                    4_096,
                    4_097,
                    4_098,
                    0xFFFF,
                    0x1_0000,
                    0x1_0001,
                    0x0100,
                    0x0100_0000,
                ];
                let length: u32 = *rng.pick(&lengths);
                file[place..place + width].copy_from_slice(&length.to_be_bytes()[4 - width..]);
            }
            (3 | 4, false) => {
                let place = *rng.pick(&places) + width;
                if let Some(stream) = file.get_mut(place) {
                    *stream = *rng.pick(&[1, 3, 4, 5, 7, 8, 0x16, 0x60, 0xFF]);
                }
            }
            _ if !file.is_empty() => {
                let place = rng.index(file.len());
                file[place] = rng.byte();
            }
            _ => {}
        }
    }
    file
}

/// One call of each kind, kept over many outboxes.
struct Desk {
    new: Call,
    append: Call,
    record: Call,
    whole: Call,
    moves: [Call; 2],
}

impl Desk {
    fn new() -> Desk {
        Desk {
            new: Call::new(Operation::OutboxNew),
            append: Call::new(Operation::OutboxAppend),
            record: Call::new(Operation::OutboxRecord),
            whole: Call::new(Operation::OutboxWhole),
            moves: [
                Call::new(Operation::OutboxTo01),
                Call::new(Operation::OutboxTo02),
            ],
        }
    }

    /// A whole outbox of a few records, made by the calls, with long ones of these sizes among them.
    /// One of version 01 is begun by hand: the calls begin none.
    fn build(
        &mut self,
        c: &mut Comparison<'_>,
        rng: &mut Rng,
        version: Version,
        long: &[usize],
    ) -> Compared<Vec<u8>> {
        let mut sizes = long.to_vec();
        for _ in 0..rng.index(5) {
            let size = if rng.once_in(4) { 0 } else { rng.index(12) };
            sizes.insert(rng.index(sizes.len() + 1), size);
        }
        let records: Vec<(u64, Vec<u8>)> = sizes
            .iter()
            .map(|size| (*rng.pick(&[0, 2, 6]), rng.bytes(*size)))
            .collect();
        let head = version.width + 1;
        let size: usize = records
            .iter()
            .map(|(_, payload)| payload.len() + head)
            .sum();
        let spare = rng.index(4);
        self.new.lent = rng.bytes(1 + size + spare);
        c.expect(&mut self.new, 0, |call| {
            call.answer == [1] && call.lent[0] == 2
        })?;
        self.append.lent.clone_from(&self.new.lent);
        if version == ONE {
            self.append.lent[0] = 1;
        }
        let mut used = 1;
        for (stream, payload) in &records {
            self.append.numbers = vec![used, *stream];
            self.append.inputs[0].clone_from(payload);
            used += (payload.len() + head) as u64;
            c.expect(&mut self.append, 0, |call| call.answer == [used, 0])?;
        }
        self.walk(c, &records, head, used as usize)?;
        Ok(self.append.lent[..used as usize].to_vec())
    }

    /// The records are read as they were appended, and then the end.
    fn walk(
        &mut self,
        c: &mut Comparison<'_>,
        records: &[(u64, Vec<u8>)],
        head: usize,
        used: usize,
    ) -> Compared<()> {
        let file = self.append.lent[..used].to_vec();
        self.whole.inputs[0].clone_from(&file);
        c.expect(&mut self.whole, 0, |call| call.answer == [0])?;
        self.record.inputs[0] = file;
        let mut place = 1;
        for (stream, payload) in records {
            self.record.numbers[0] = place;
            c.expect(&mut self.record, 0, |call| {
                let [outcome, told, start, length, next, cut] = call.answer[..] else {
                    return false;
                };
                let part = &call.inputs[0][start as usize..][..length as usize];
                outcome == 1
                    && told == *stream
                    && part == payload
                    && next == place + (payload.len() + head) as u64
                    && cut == 0
            })?;
            place = self.record.answer[4];
        }
        self.record.numbers[0] = place;
        c.expect(&mut self.record, 0, |call| call.answer == [0; 6])
    }

    /// Cuts the bytes at every place, or at every one near an edge and some between; walks what is
    /// left, reads it at many places, and appends to it.
    fn cut_everywhere(
        &mut self,
        c: &mut Comparison<'_>,
        rng: &mut Rng,
        file: &[u8],
        stride: usize,
    ) -> Compared<()> {
        for end in 0..=file.len() {
            let near = end < 40
                || end + 40 > file.len()
                || (4_090..4_110).contains(&end)
                || (65_530..65_550).contains(&end);
            if near || end % stride == 0 {
                self.cut(c, rng, file, end)?;
            }
        }
        Ok(())
    }

    fn cut(
        &mut self,
        c: &mut Comparison<'_>,
        rng: &mut Rng,
        file: &[u8],
        end: usize,
    ) -> Compared<()> {
        let bytes = &file[..end];
        self.whole.inputs[0].clear();
        self.whole.inputs[0].extend_from_slice(bytes);
        c.run(&mut self.whole)?;
        self.moved(c, rng, bytes)?;

        // The places told, one after the other, and some that nobody told.
        self.record.inputs[0].clear();
        self.record.inputs[0].extend_from_slice(bytes);
        let mut place = 1;
        loop {
            self.record.numbers[0] = place;
            if c.run(&mut self.record)? != 0 || self.record.answer[0] == 0 {
                break;
            }
            place = self.record.answer[4];
        }
        let others = [
            0,
            end as u64,
            end as u64 + 1,
            rng.index(end + 1) as u64,
            edge(rng),
        ];
        let other = *rng.pick(&others);
        self.record.numbers[0] = other;
        c.run(&mut self.record)?;

        // Appended to: the bytes after the cut are whatever stood there.
        let version = Version::of(bytes).unwrap_or(TWO);
        let size = match rng.below(48) {
            0 => 4_096,
            1 => 4_097,
            2 if end < 40 => version.payload,
            3 if end < 40 => version.payload + 1,
            4 | 5 => 0,
            _ => rng.index(9),
        };
        let record = size + version.width + 1;
        let payload = rng.bytes(size);
        let stream = if rng.once_in(10) {
            edge(rng)
        } else {
            *rng.pick(&[0, 2, 6])
        };
        let free = match rng.below(6) {
            0 => rng.index(record),
            1 => record - 1,
            2 => record,
            _ => record + rng.index(8),
        };
        self.append.lent.clear();
        self.append.lent.extend_from_slice(file);
        self.append.lent.resize(end + free, 0x33);
        self.append.numbers = vec![end as u64, stream];
        if rng.once_in(20) {
            self.append.numbers[0] =
                *rng.pick(&[(end + free) as u64, (end + free) as u64 + 1, 0, u64::MAX]);
        }
        self.append.inputs[0] = payload;
        if c.run(&mut self.append)? == 0 {
            let used = self.append.answer[0] as usize;
            self.whole.inputs[0] = self.append.lent[..used].to_vec();
            c.expect(&mut self.whole, 0, |call| call.answer == [0])?;
        }
        Ok(())
    }

    /// Writes the bytes as each version; what came out whole goes back to the same bytes.
    fn moved(&mut self, c: &mut Comparison<'_>, rng: &mut Rng, bytes: &[u8]) -> Compared<()> {
        for there in 0..2 {
            let call = &mut self.moves[there];
            call.inputs[0].clear();
            call.inputs[0].extend_from_slice(bytes);
            let room = match rng.below(4) {
                0 => rng.index(bytes.len() + 2),
                1 => bytes.len(),
                _ => 2 * bytes.len() + 2,
            };
            call.lent = rng.bytes(room);
            if c.run(call)? != 0 {
                continue;
            }
            let size = call.answer[0] as usize;
            let made = call.lent[..size].to_vec();
            // Just the room that it takes, and one byte less.
            call.lent = rng.bytes(size);
            c.expect(call, 0, |call| call.lent == made)?;
            call.lent = rng.bytes(size - 1);
            c.expect(call, 14, |call| call.answer == [0, 0])?;
            let own = usize::from(bytes[0] == 2);
            let call = &mut self.moves[own];
            call.inputs[0] = made;
            call.lent = rng.bytes(bytes.len());
            c.expect(call, 0, |call| call.lent == bytes)?;
        }
        Ok(())
    }
}
