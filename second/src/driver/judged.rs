//! Captures judged (No. 8): worked inputs, every list of up to three packets of a small pool, the captures of other
//! makers, and transactions of all streams mixed, some of them damaged. And the program `lawful`, line by line.

use super::captures::Capture;
use super::listing::printed;
use super::worked::bytes;
use super::{damage, Plan};
use crate::comparison::{hex, Compared, Comparison};
use crate::implementation::{Call, Operation};
use crate::judge;
use crate::low_energy::{acknowledgement, packet, pieces, Stream, Wish};
use crate::rng::Rng;
use std::path::Path;

/// P4's three packets: 35 bytes at room 20.
const P4: [&str; 3] = [
    "61 00 00 00 23 0E 01 02 03 04 05 06 07 08 09 0A 0B 0C 0D 0E",
    "61 14 11 0F 10 11 12 13 14 15 16 17 18 19 1A 1B 1C 1D 1E 1F",
    "61 2A 04 20 21 22 23",
];

/// Worked by hand from the request: room, limit, packets, and the answer row.
const WORKED: &[(u64, u64, &[&str], [u64; 2])] = &[
    (20, 35, &P4, [1, 0]),
    (20, 34, &P4, [3, 1]),
    (21, 35, &P4, [3, 1]),
    (20, 35, &[P4[0], P4[1]], [2, 0]),
    (20, 35, &[], [1, 0]),
    // The second packet has seven bytes where six are left.
    (
        20,
        4_096,
        &[
            "00 00 00 00 14 0E 00 00 00 00 00 00 00 00 00 00 00 00 00 00",
            "00 18 07 00 00 00 00 00 00 00",
        ],
        [3, 23],
    ),
    // The flag on a first packet that is not the last.
    (
        20,
        4_096,
        &["00 02 00 00 14 0E 00 00 00 00 00 00 00 00 00 00 00 00 00 00"],
        [3, 1],
    ),
];

/// The capture of some packets.
pub fn capture(packets: &[Vec<u8>]) -> Vec<u8> {
    let mut made = vec![1];
    for packet in packets {
        made.extend((packet.len() as u16).to_be_bytes());
        made.extend(packet);
    }
    made
}

/// Judged, and told why: the verdict and its place are the same.
fn judged(c: &mut Comparison<'_>, room: u64, limit: u64, capture: &[u8]) -> Compared<()> {
    let mut judge = call(room, limit, capture);
    let returned = c.run(&mut judge)?;
    let mut why = Call::new(Operation::CaptureWhy)
        .numbers(&[room, limit])
        .inputs(&[capture]);
    let same = c.run(&mut why)? == returned && why.answer[..2] == judge.answer[..];
    c.hold(same, "the verdict of the judge", &why)
}

fn call(room: u64, limit: u64, capture: &[u8]) -> Call {
    Call::new(Operation::CaptureJudge)
        .numbers(&[room, limit])
        .inputs(&[capture])
}

pub fn run(c: &mut Comparison<'_>, rng: &mut Rng, plan: Plan) -> Compared<()> {
    for &(room, limit, packets, row) in WORKED {
        let packets: Vec<_> = packets.iter().map(|packet| bytes(packet)).collect();
        let mut call = call(room, limit, &capture(&packets));
        let returned = c.run(&mut call)?;
        c.hold(
            returned == 0 && call.answer == row,
            "the worked answer",
            &call,
        )?;
    }
    // A packet longer than the room is unlawful, not refused.
    let mut long = call(20, 4_096, &capture(&[vec![0; 600]]));
    let returned = c.run(&mut long)?;
    c.hold(
        returned == 0 && long.answer == [3, 1],
        "the worked answer",
        &long,
    )?;
    every_list(c)?;
    for number in 0..plan.times(20_000) {
        if number % 256 == 0 {
            c.at = format!("captures judged, capture {number}");
        }
        let (room, limit, mut made) = generated(rng);
        match rng.below(24) {
            0 => damage(rng, &mut made, |rng| rng.byte()),
            1 => made.truncate(rng.index(made.len() + 1)),
            2 => made.extend([0, 0]),
            _ => {}
        }
        judged(c, room, limit, &made)?;
    }
    Ok(())
}

/// Packets at room 20 of which each list of up to three is judged: whole messages and parts of them on two streams, with
/// other ids, sequences, types, flags and extenders, an ACK, a NACK and what is none, streams that there are not.
fn pool() -> Vec<Vec<u8>> {
    let mut pool: Vec<Vec<u8>> = P4.iter().map(|packet| bytes(packet)).collect();
    let message = |stream, id, sequence, ack, length: usize| {
        let wish = Wish {
            stream,
            id,
            sequence,
            ack,
        };
        let bytes: Vec<u8> = (0..length as u8).collect();
        let all: Vec<_> = pieces(length, 20)
            .map(|piece| packet(wish, &bytes, piece))
            .collect();
        all
    };
    pool.extend(message(Stream::Alexa, 1, 0, false, 16));
    pool.extend(message(Stream::Control, 1, 15, true, 20));
    pool.extend(message(Stream::Control, 1, 15, false, 0));
    pool.extend(message(Stream::Ota, 2, 3, true, 2));
    pool.push(acknowledgement(Stream::Alexa, 1, 7, true).to_vec());
    pool.push(acknowledgement(Stream::Ota, 1, 7, false).to_vec());
    // One field another: id, sequence, type, flag, extender, reserved byte, total (also above the limit), stream.
    let first = pool[0].clone();
    let next = pool[4].clone();
    let changed = |packet: &[u8], place: usize, flip: u8| {
        let mut packet = packet.to_vec();
        packet[place] ^= flip;
        packet
    };
    for (place, flip) in [(1, 2), (1, 1), (2, 1), (4, 1), (4, 4), (5, 1), (0, 0x10)] {
        pool.push(changed(&first, place, flip));
    }
    for (place, flip) in [(0, 1), (1, 0x20), (1, 0x0C), (1, 2), (1, 1), (2, 1)] {
        pool.push(changed(&next, place, flip));
    }
    // An extender that need not stand, on a message of one byte and on the last packet of 16; a packet of one byte; an ACK
    // with another code; no payload, and one above its total.
    pool.push(bytes("61 01 00 00 01 00 01 AA"));
    pool.push(bytes("61 19 00 02 0E 0F"));
    pool.push(vec![0x61]);
    pool.push(bytes("61 7E 00 02 01 03"));
    pool.push(bytes("61 14 00"));
    pool.push(bytes("61 00 00 00 01 02 AA BB"));
    pool
}

fn every_list(c: &mut Comparison<'_>) -> Compared<()> {
    let pool = pool();
    let judge = |c: &mut Comparison<'_>, list: &[Vec<u8>]| -> Compared<()> {
        judged(c, 20, 35, &capture(list))
    };
    c.at = format!(
        "captures judged, all lists of up to three of {} packets",
        pool.len()
    );
    for one in &pool {
        judge(c, std::slice::from_ref(one))?;
        for two in &pool {
            judge(c, &[one.clone(), two.clone()])?;
            for three in &pool {
                judge(c, &[one.clone(), two.clone(), three.clone()])?;
            }
        }
    }
    Ok(())
}

/// A room, a limit, and a capture of transactions of all streams, mixed, with ACKs between; in a third of them one packet
/// is damaged, left out, doubled or moved.
pub(super) fn generated(rng: &mut Rng) -> (u64, u64, Vec<u8>) {
    let room = *rng.pick(&[20, 21, 35, 61, 244, 259, 260, 261, 262, 263, 264, 512]);
    let limit = *rng.pick(&[1, 20, 300, 4_096, 65_535]);
    let mut lanes: Vec<Vec<Vec<u8>>> = Stream::ALL
        .into_iter()
        .map(|stream| {
            (0..rng.index(3))
                .flat_map(|_| transaction(rng, stream, room, limit))
                .collect()
        })
        .collect();
    let mut packets = Vec::new();
    while lanes.iter().any(|lane| !lane.is_empty()) {
        let lane = rng.index(3);
        if !lanes[lane].is_empty() {
            packets.push(lanes[lane].remove(0));
        }
        if rng.once_in(6) {
            let stream = *rng.pick(&Stream::ALL);
            packets.push(acknowledgement(stream, 3, rng.below(16) as u8, rng.once_in(2)).to_vec());
        }
    }
    if rng.once_in(5) {
        packets.truncate(rng.index(packets.len() + 1));
    }
    if rng.once_in(3) && !packets.is_empty() {
        let place = rng.index(packets.len());
        match rng.below(4) {
            0 => damage(rng, &mut packets[place], |rng| rng.byte()),
            1 => drop(packets.remove(place)),
            2 => packets.insert(place, packets[place].clone()),
            _ => packets.swap(place, 0),
        }
        packets.retain(|packet| !packet.is_empty());
    }
    // A room or limit beside it now and then: another, or one out of range.
    let room = if rng.once_in(9) {
        *rng.pick(&[19, 20, 513, room as u64 + 1])
    } else {
        room as u64
    };
    let limit = if rng.once_in(9) {
        *rng.pick(&[0, 19, 65_536])
    } else {
        limit as u64
    };
    (room, limit, capture(&packets))
}

/// The packets of a transaction of up to the limit, at the edges of pieces now and then.
fn transaction(rng: &mut Rng, stream: Stream, room: usize, limit: usize) -> Vec<Vec<u8>> {
    let length = match rng.below(4) {
        0 => rng.index(3),
        1 => rng.between(room - 8, room),
        2 => rng.between(250, 262),
        _ => rng.index(4 * room),
    };
    let message = rng.bytes(length.min(limit));
    let wish = Wish {
        stream,
        id: rng.below(16) as u8,
        sequence: rng.below(16) as u8,
        ack: rng.once_in(2),
    };
    pieces(message.len(), room)
        .map(|piece| packet(wish, &message, piece))
        .collect()
}

/// The rooms at which the captures of other makers are judged.
const ROOMS: [u64; 4] = [20, 21, 244, 512];

/// A capture of another maker, whose chunks are packets, judged at some rooms.
pub fn judge_capture(c: &mut Comparison<'_>, of: &Capture) -> Compared<()> {
    c.at = format!("capture {} judged", of.name);
    for room in ROOMS {
        judged(c, room, 4_096, &capture(&of.chunks))?;
    }
    Ok(())
}

/// Runs the program on the captures and on generated ones; gives how many.
pub fn run_program(program: &Path, captures: &[Capture], plan: Plan) -> Result<usize, String> {
    let mut rng = Rng::new(plan.seed ^ 0x6C61_7766_756C);
    let input = |room: u64, limit: u64, capture: &[u8]| {
        let mut input = (room as u16).to_be_bytes().to_vec();
        input.extend((limit as u16).to_be_bytes());
        input.extend(capture);
        input
    };
    let mut inputs: Vec<Vec<u8>> = (0..6)
        .map(|length| vec![0, 20, 16, 0, 1][..length.min(5)].to_vec())
        .collect();
    for of in captures.iter().filter(|of| of.is_low_energy()) {
        inputs.extend(ROOMS.map(|room| input(room, 4_096, &capture(&of.chunks))));
    }
    for _ in 0..plan.times(40) {
        let (room, limit, made) = generated(&mut rng);
        inputs.push(input(room, limit, &made));
    }
    // As long as may be, and a byte longer.
    let acks = vec![acknowledgement(Stream::Ota, 1, 2, true).to_vec(); 8_191];
    let mut longest = capture(&acks);
    longest.resize(judge::LARGEST, 0);
    inputs.push(input(20, 1, &longest));
    longest.push(0);
    inputs.push(input(20, 1, &longest));
    for given in &inputs {
        let told = printed(program, given)?;
        let expected = judge::line(given);
        if told != expected.as_bytes() {
            return Err(format!(
                "difference: lawful\n  input, {} bytes: {}\n  second prints {expected}  {} prints {}",
                given.len(),
                hex(given),
                program.display(),
                String::from_utf8_lossy(&told),
            ));
        }
    }
    Ok(inputs.len())
}
