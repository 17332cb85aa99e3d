//! The inputs, the same in every run.

use crate::low_energy::WISH;
use second::classic::{self, END, ESCAPE, START};
use second::low_energy::{self, acknowledgement, Stream, Wish, SLOTS};
use second::outbox::{self, Version};
use second::rng::Rng;

pub const MARKS: [u8; 3] = [START, END, ESCAPE];

pub fn rng() -> Rng {
    Rng::new(1)
}

/// A byte that is no mark.
pub fn plain_byte(rng: &mut Rng) -> u8 {
    match rng.byte() {
        byte if classic::is_mark(byte) => byte - START,
        byte => byte,
    }
}

/// Parts until they have `total` bytes together.
pub fn parts(total: usize, mut part: impl FnMut(&mut Rng) -> Vec<u8>) -> Vec<Vec<u8>> {
    let (mut rng, mut made, mut size) = (rng(), Vec::new(), 0);
    while size < total {
        let part = part(&mut rng);
        size += part.len();
        made.push(part);
    }
    made
}

/// Payloads of 0 to 255 random bytes.
pub fn ordinary(total: usize) -> Vec<Vec<u8>> {
    parts(total, |rng| {
        let length = rng.between(0, 255);
        rng.bytes(length)
    })
}

/// Payloads of 4,096 bytes with no mark in them.
pub fn long_clean(total: usize) -> Vec<Vec<u8>> {
    parts(total, |rng| (0..4_096).map(|_| plain_byte(rng)).collect())
}

/// Payloads of 0 to 7 random bytes.
pub fn tiny(total: usize) -> Vec<Vec<u8>> {
    parts(total, |rng| {
        let length = rng.between(0, 7);
        rng.bytes(length)
    })
}

/// Payloads of 0 to 255 marks.
pub fn marks(total: usize) -> Vec<Vec<u8>> {
    parts(total, |rng| {
        let length = rng.between(0, 255);
        (0..length).map(|_| *rng.pick(&MARKS)).collect()
    })
}

/// The sequence byte of a payload by its number, never a mark.
pub fn sequence(index: usize) -> u8 {
    (index % usize::from(START)) as u8
}

/// The frames of payloads, one after another.
pub fn frames(payloads: &[Vec<u8>]) -> Vec<u8> {
    payloads
        .iter()
        .enumerate()
        .flat_map(|(index, payload)| classic::frame(sequence(index), payload))
        .collect()
}

/// Streams of one pattern, with the refusal that they are given.
pub const PATTERNS: [(&str, &[u8]); 6] = [
    ("F0 only (20)", &[0xF0]),
    ("F1 only, outside", &[0xF1]),
    ("F0 F1 (21)", &[0xF0, 0xF1]),
    ("F0 03 (22)", &[0xF0, 0x03]),
    ("F0 02 00 05 (20)", &[0xF0, 0x02, 0x00, 0x05]),
    (
        "F0 02 00 05 F2 F2 (23)",
        &[0xF0, 0x02, 0x00, 0x05, 0xF2, 0xF2],
    ),
];

/// Random bytes, and 00 for each F0.
pub fn no_start(total: usize) -> Vec<u8> {
    let mut bytes = rng().bytes(total);
    bytes
        .iter_mut()
        .filter(|byte| **byte == START)
        .for_each(|byte| *byte = 0x00);
    bytes
}

/// `total` bytes of a pattern.
pub fn repeated(pattern: &[u8], total: usize) -> Vec<u8> {
    pattern.iter().copied().cycle().take(total).collect()
}

/// The beginning of a frame, with the sequence byte 05.
pub const HEADER: [u8; 4] = [START, 0x02, 0x00, 0x05];

/// A frame whose body is 4,099 bytes, one more than fit.
pub fn too_long() -> Vec<u8> {
    [&HEADER[..], &[0x41; 4_099]].concat()
}

/// The same with every byte escaped.
pub fn too_long_escaped() -> Vec<u8> {
    [&HEADER[..], &[ESCAPE, 0x00].repeat(4_099)].concat()
}

/// A frame of 64 bytes whose checksum differs.
pub fn wrong_sum() -> Vec<u8> {
    let mut frame = classic::frame(0x05, &[0x41; 64]);
    frame[10] ^= 1;
    frame
}

/// Messages of `size` random bytes, `total` bytes in all.
pub fn messages(total: usize, size: usize) -> Vec<Vec<u8>> {
    parts(total, |rng| rng.bytes(size))
}

/// All packets of messages at a room.
pub fn packets(messages: &[Vec<u8>], room: usize) -> Vec<Vec<u8>> {
    let of = |message| {
        let pieces = low_energy::pieces(Vec::len(message), room);
        pieces.map(|piece| low_energy::packet(WISH, message, piece))
    };
    messages.iter().flat_map(of).collect()
}

/// All packets of messages at a room, twelve messages at a time, four of each stream, by turns: every slot
/// is open.
pub fn packets_by_turns(messages: &[Vec<u8>], room: usize) -> Vec<Vec<u8>> {
    let mut packets = Vec::new();
    for group in messages.chunks(SLOTS) {
        let of = |(index, message): (usize, &Vec<u8>)| -> Vec<Vec<u8>> {
            let stream = Stream::ALL[index / 4];
            let id = index as u8;
            let wish = Wish { stream, id, ..WISH };
            low_energy::pieces(message.len(), room)
                .map(|piece| low_energy::packet(wish, message, piece))
                .collect()
        };
        let of_each: Vec<Vec<Vec<u8>>> = group.iter().enumerate().map(of).collect();
        let most = of_each.iter().map(Vec::len).max().unwrap_or(0);
        for turn in 0..most {
            packets.extend(
                of_each
                    .iter()
                    .filter_map(|of_one| of_one.get(turn).cloned()),
            );
        }
    }
    packets
}

/// ACKs and NACKs by turns.
pub fn acks(count: usize) -> Vec<Vec<u8>> {
    let one = |turn| {
        let (id, sequence) = (turn % 16, turn / 16 % 16);
        acknowledgement(WISH.stream, id as u8, sequence as u8, turn % 2 == 1).to_vec()
    };
    (0..count).map(one).collect()
}

/// A first packet of 4,096 bytes in all, with the first 14 of them.
pub fn first_packet() -> Vec<u8> {
    let mut packet = vec![0x61, 0x00, 0x00, 0x10, 0x00, 14];
    packet.extend([0x41; 14]);
    packet
}

/// A message of 4,096 bytes again and again, each byte in a packet of its own.
pub fn single_bytes(count: usize) -> Vec<Vec<u8>> {
    let one = |index: usize| {
        let place = index % 4_096;
        let sequence = (place % 16) as u8;
        match place {
            0 => vec![0x61, 0x00, 0x00, 0x10, 0x00, 0x01, 0x41],
            4_095 => vec![0x61, sequence << 4 | 0x08, 0x01, 0x41],
            _ => vec![0x61, sequence << 4 | 0x04, 0x01, 0x41],
        }
    };
    (0..count).map(one).collect()
}

/// A message of `size` bytes in one packet, with the extender.
pub fn one_packet(size: usize) -> Vec<u8> {
    let [high, low] = (size as u16).to_be_bytes();
    let mut packet = vec![0x61, 0x01, 0x00, high, low, high, low];
    packet.resize(7 + size, 0x41);
    packet
}

/// A name for each refusal of the receiver, and the packet that it is given for.
const REFUSED: [(&str, &[u8]); 11] = [
    ("2, one byte", &[0x61]),
    ("3, stream 1", &[0x11, 0x00, 0x00, 0x00, 0x01, 0x01, 0x41]),
    (
        "4, reserved byte 1",
        &[0x61, 0x00, 0x01, 0x00, 0x01, 0x01, 0x41],
    ),
    (
        "5, length 2 of 1",
        &[0x61, 0x00, 0x00, 0x00, 0x02, 0x02, 0x41],
    ),
    (
        "6, total 4,097",
        &[0x61, 0x00, 0x00, 0x10, 0x01, 0x01, 0x41],
    ),
    ("7, empty payload", &[0x61, 0x00, 0x00, 0x00, 0x01, 0x00]),
    (
        "8, 2 bytes of 1",
        &[0x61, 0x00, 0x00, 0x00, 0x01, 0x02, 0x41, 0x42],
    ),
    ("9, nothing open", &[0x61, 0x14, 0x01, 0x41]),
    ("12, type 3 of five bytes", &[0x61, 0x0E, 0x00, 0x02, 0x01]),
    ("10, after a first packet", &[0x61, 0x24, 0x01, 0x41]),
    ("11, after a first packet", &[0x61, 0x18, 0x01, 0x41]),
];

/// Packets for each refusal of the receiver; 10 and 11 need an open transaction each time, 18 four of its
/// stream.
pub fn refused() -> Vec<(&'static str, Vec<Vec<u8>>)> {
    let packets = |(name, packet): (&'static str, &[u8])| match name.ends_with("first packet") {
        true => (name, vec![first_packet(), packet.to_vec()]),
        false => (name, vec![packet.to_vec()]),
    };
    let full = (0x22..=0x26).map(|head| vec![head, 0x00, 0x00, 0x00, 0x02, 0x01, 0x41]);
    let full = ("18, after four first packets", full.collect());
    REFUSED.into_iter().map(packets).chain([full]).collect()
}

/// A whole outbox of a version, of so many records with payloads of one size.
pub fn outbox(version: Version, records: usize, payload: usize) -> Vec<u8> {
    let mut rng = rng();
    let mut bytes = vec![if version == outbox::ONE { 0x01 } else { 0x02 }];
    for _ in 0..records {
        bytes.extend(&(payload as u32 + 1).to_be_bytes()[4 - version.width..]);
        bytes.push(*rng.pick(&[0, 2, 6]));
        bytes.extend(rng.bytes(payload));
    }
    bytes
}

/// How many records an outbox has, up to the first that is cut.
pub fn records(bytes: &[u8]) -> usize {
    let mut place = 1;
    std::iter::from_fn(|| {
        let record = outbox::record(bytes, place).ok()??;
        place = record.next as u64;
        Some(record)
    })
    .count()
}
