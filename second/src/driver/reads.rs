//! Packets read one by one: at the front of some bytes, joined and by themselves, damaged and cut; and at each place of a
//! capture, from one to the next.

use super::judged::{capture, generated};
use super::packets::{acknowledgement, any_byte, directed, message_packets};
use super::worked::bytes;
use super::{damage, edge, Plan};
use crate::comparison::{Compared, Comparison};
use crate::implementation::{Call, Operation};
use crate::judge;
use crate::low_energy::Stream;
use crate::rng::Rng;

/// Worked by hand: bytes, limit, what is returned, and the answer row.
const WORKED: &[(&str, u64, u64, [u64; 10])] = &[
    // The first of two packets that stand joined, at its total and below.
    (
        "6F 52 00 00 03 02 AA BB 6F 68 01 CC",
        3,
        0,
        [8, 6, 15, 5, 0, 1, 0, 3, 6, 2],
    ),
    ("6F 52 00 00 03 02 AA BB 6F 68 01 CC", 2, 6, [0; 10]),
    ("6F 68 01 CC", 0, 0, [4, 6, 15, 6, 2, 0, 0, 0, 3, 1]),
    ("20 1D 00 01 CC DD", 0, 12, [0; 10]),
    ("20 15 00 01 CC DD", 0, 0, [5, 2, 0, 1, 1, 0, 1, 0, 4, 1]),
    // Six zero bytes are an empty message.
    ("00 00 00 00 00 00", 0, 0, [6, 0, 0, 0, 0, 0, 0, 0, 6, 0]),
    // An ACK, a NACK, and an ACK of which a byte is missing.
    (
        "61 BE 00 02 01 00 FF",
        0,
        0,
        [6, 6, 1, 11, 3, 1, 0, 0, 0, 0],
    ),
    ("61 FC 00 02 01 03", 0, 0, [6, 6, 1, 15, 3, 0, 0, 0, 0, 0]),
    ("61 BE 00 02 01", 0, 12, [0; 10]),
    ("", 9, 2, [0; 10]),
    ("61", 9, 2, [0; 10]),
    ("61 14", 9, 2, [0; 10]),
    ("61 14 02 AA", 9, 5, [0; 10]),
    ("11 14 02 AA BB", 9, 3, [0; 10]),
    ("61 14 00 AA BB", 9, 7, [0; 10]),
    ("61 00 01 00 02 01 AA", 9, 4, [0; 10]),
    ("61 00 00 00 01 02 AA BB", 9, 8, [0; 10]),
];

pub fn run(c: &mut Comparison<'_>, rng: &mut Rng, plan: Plan) -> Compared<()> {
    for &(packet, limit, expected, row) in WORKED {
        let mut call = reader(limit, &bytes(packet));
        c.expect(&mut call, expected, |call| call.answer == row)?;
    }
    for number in 0..plan.times(200_000) {
        if number % 256 == 0 {
            c.at = format!("packets read, bytes {number}");
        }
        let limit = match rng.below(3) {
            0 => 65_535,
            1 => edge(rng),
            _ => 300,
        };
        let mut made = some_packets(rng).concat();
        match rng.below(6) {
            0 => damage(rng, &mut made, any_byte),
            1 => made.truncate(rng.index(made.len() + 1)),
            _ => {}
        }
        c.run(&mut reader(limit, &made))?;
    }
    for number in 0..plan.times(20_000) {
        if number % 256 == 0 {
            c.at = format!("packets cut apart, message {number}");
        }
        cut_apart(c, rng)?;
    }
    captures(c, rng, plan)
}

fn reader(limit: u64, bytes: &[u8]) -> Call {
    Call::new(Operation::PacketRead)
        .numbers(&[limit])
        .inputs(&[bytes])
}

/// A few packets of all kinds.
fn some_packets(rng: &mut Rng) -> Vec<Vec<u8>> {
    (0..rng.between(1, 3))
        .map(|_| match rng.below(4) {
            0 => acknowledgement(rng),
            1 | 2 => directed(rng, 300, &[]),
            _ => {
                let stream = *rng.pick(&Stream::ALL);
                message_packets(rng, stream, 16, 600)
                    .pop_front()
                    .expect("a message has a packet")
            }
        })
        .collect()
}

/// The joined packets of a message, of our writer's and of other makers': cut where each is told to end, they are these.
fn cut_apart(c: &mut Comparison<'_>, rng: &mut Rng) -> Compared<()> {
    let stream = *rng.pick(&Stream::ALL);
    let packets: Vec<_> = message_packets(rng, stream, 16, 65_535).into();
    let mut rest = packets.concat();
    for packet in &packets {
        let mut call = reader(65_535, &rest);
        c.expect(&mut call, 0, |call| {
            call.answer[0] == packet.len() as u64 && rest.starts_with(packet)
        })?;
        rest.drain(..packet.len());
    }
    let mut call = reader(65_535, &rest);
    c.expect(&mut call, 2, |_| rest.is_empty())
}

fn captures(c: &mut Comparison<'_>, rng: &mut Rng, plan: Plan) -> Compared<()> {
    let two = bytes("01 00 02 61 62 00 01 63");
    for (place, expected, row) in [
        (0, 15, [0; 5]),
        (1, 0, [1, 3, 2, 5, 0]),
        (2, 41, [0, 0, 0, 0, 2]),
        (5, 0, [1, 7, 1, 8, 0]),
        (7, 41, [0, 0, 0, 0, 7]),
        (8, 0, [0; 5]),
        (9, 15, [0; 5]),
        (1 << 32, 15, [0; 5]),
        ((1 << 32) + 1, 15, [0; 5]),
        (u64::MAX, 15, [0; 5]),
    ] {
        let mut call = at_place(place, &two);
        c.expect(&mut call, expected, |call| call.answer == row)?;
    }
    for (capture, place, expected, told) in [
        ("", 1, 40, 0),
        ("02 00 01 61", 0, 40, 0),
        ("01 00 00", 1, 42, 1),
        ("01 00", 1, 41, 1),
        ("01 00 02 61", 1, 41, 1),
    ] {
        let mut call = at_place(place, &bytes(capture));
        c.expect(&mut call, expected, |call| {
            call.answer == [0, 0, 0, 0, told]
        })?;
    }
    for number in 0..plan.times(20_000) {
        if number % 256 == 0 {
            c.at = format!("captures read place after place, capture {number}");
        }
        let mut made = if rng.once_in(2) {
            generated(rng).2
        } else {
            let mut packets = some_packets(rng);
            packets.retain(|packet| !packet.is_empty());
            capture(&packets)
        };
        match rng.below(8) {
            0 => damage(rng, &mut made, any_byte),
            1 => made.truncate(rng.index(made.len() + 1)),
            2 => made.extend([0, 0]),
            _ => {}
        }
        walk(c, &made)?;
        let place = if rng.once_in(2) {
            edge(rng)
        } else {
            rng.index(made.len() + 2) as u64
        };
        c.run(&mut at_place(place, &made))?;
    }
    Ok(())
}

fn at_place(place: u64, capture: &[u8]) -> Call {
    Call::new(Operation::CapturePacket)
        .numbers(&[place])
        .inputs(&[capture])
}

/// From place 1 on, the packets are those of the capture, or its refusal comes at the place of the packet's length.
fn walk(c: &mut Comparison<'_>, capture: &[u8]) -> Compared<()> {
    let mut call = at_place(1, capture);
    let mut found = Vec::new();
    let returned = loop {
        let returned = c.run(&mut call)?;
        if returned != 0 || call.answer[0] == 0 {
            break returned;
        }
        let [_, start, length, next, _] = call.answer[..] else {
            panic!("five numbers")
        };
        let packet = &capture[start as usize..][..length as usize];
        found.push((call.numbers[0] as usize, packet));
        call.numbers[0] = next;
    };
    let right = match judge::packets(capture) {
        Ok(packets) => returned == 0 && packets == found,
        Err((refusal, place)) => {
            returned == refusal.number() && call.answer == [0, 0, 0, 0, place as u64]
        }
    };
    c.hold(right, "the packets of the capture", &call)
}
