//! "Two packets whose stream fields differ, given in either order over the same buffer, get the same
//! two answers, end in the same state and leave the same buffer", "each packet keeping its own answer
//! sequence and answer buffer, which ends the same too"; the row ends the same, and the places told are
//! the same. Pairs of such packets, from lawful rows, two thirds of them as the packets before left them,
//! on links with several limits.

use super::{packets, Plan};
use crate::comparison::{hex, Compared, Comparison};
use crate::implementation::{Call, Operation, Slot};
use crate::low_energy;
use crate::rng::Rng;

/// The limits that are tried, each with its number of pairs.
const LIMITS: &[(u64, u64)] = &[
    (64, 100_000),
    (4_096, 20_000),
    (1, 5_000),
    (2, 5_000),
    (20, 5_000),
    (19, 5_000),
    (255, 5_000),
    (256, 5_000),
    (20_000, 60),
    (65_535, 30),
];

pub fn run(c: &mut Comparison<'_>, rng: &mut Rng, plan: Plan) -> Compared<()> {
    for &(limit, pairs) in LIMITS {
        let mut call = Call::new(Operation::ReceiverAccept)
            .state(&packets::idle(limit))
            .lent(rng.bytes(low_energy::buffer(limit)));
        for number in 0..plan.times(pairs) {
            if number % 256 == 0 {
                c.at = format!("packets of two streams at limit {limit}, pair {number}");
            }
            match rng.below(30) {
                0 => call.slots.fill(Slot::default()),
                1..=10 => call.slots = packets::lawful(rng, limit),
                _ => {}
            }
            for _ in 0..rng.index(3) {
                call.inputs[0] = packets::directed(rng, limit, &call.slots);
                (call.numbers[0], call.reply) = packets::answering(rng, 60);
                c.run(&mut call)?;
            }
            let (one, other) = pair(rng, limit, &call.slots);
            either_order(c, &mut call, one, other)?;
        }
    }
    Ok(())
}

/// Both orders, from the call's state and buffer; the call then holds what they left.
fn either_order(c: &mut Comparison<'_>, call: &mut Call, one: Given, other: Given) -> Compared<()> {
    let mut turned = call.clone();
    let first = told(c, call, &one)?;
    let second = told(c, call, &other)?;
    let turned_second = told(c, &mut turned, &other)?;
    let turned_first = told(c, &mut turned, &one)?;
    let same = first == turned_first
        && second == turned_second
        && call.state == turned.state
        && call.slots == turned.slots
        && call.lent == turned.lent;
    if same {
        return Ok(());
    }
    let what = format!(
        "{} and {} in either order",
        hex(&one.packet),
        hex(&other.packet)
    );
    c.hold(false, &what, &turned)
}

/// A packet with its own answer sequence and answer buffer.
struct Given {
    packet: Vec<u8>,
    sequence: u64,
    reply: Vec<u8>,
}

/// What is told of a packet: the number returned, the answer where it is 0, and the answer buffer.
type Told = (u64, Option<Vec<u64>>, Vec<u8>);

fn told(c: &mut Comparison<'_>, call: &mut Call, given: &Given) -> Compared<Told> {
    call.inputs[0].clone_from(&given.packet);
    call.numbers[0] = given.sequence;
    call.reply.clone_from(&given.reply);
    let returned = c.run(call)?;
    let answer = (returned == 0).then(|| call.answer.clone());
    Ok((returned, answer, call.reply.clone()))
}

/// Two packets of at least one byte whose stream fields differ.
fn pair(rng: &mut Rng, limit: u64, slots: &[Slot]) -> (Given, Given) {
    loop {
        let (one, other) = (given(rng, limit, slots), given(rng, limit, slots));
        if let (Some(a), Some(b)) = (one.packet.first(), other.packet.first()) {
            if a >> 4 != b >> 4 {
                return (one, other);
            }
        }
    }
}

fn given(rng: &mut Rng, limit: u64, slots: &[Slot]) -> Given {
    let (sequence, reply) = packets::answering(rng, 8);
    Given {
        packet: packet(rng, limit, slots),
        sequence,
        reply,
    }
}

/// A packet for the row at hand, an ACK or something like one; some of any stream, some of one
/// byte.
fn packet(rng: &mut Rng, limit: u64, slots: &[Slot]) -> Vec<u8> {
    let mut packet = if rng.once_in(8) {
        packets::acknowledgement(rng)
    } else {
        packets::directed(rng, limit, slots)
    };
    if rng.once_in(6) {
        if let Some(first) = packet.first_mut() {
            *first = *first & 0x0F | (rng.below(16) as u8) << 4;
        }
    }
    if rng.once_in(40) {
        packet.truncate(1);
    }
    packet
}
