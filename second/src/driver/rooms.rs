//! Messages at rooms: all of 0 to 64 bytes at all rooms, boundary sizes to 4,096 at all rooms. Each
//! message is written place after place, and its packets go through the receiver. Then messages as
//! long as other limits.

use super::{packets, Plan};
use crate::classic::LIMIT;
use crate::comparison::{Compared, Comparison};
use crate::implementation::{Call, Operation};
use crate::low_energy::{self, Stream};
use crate::rng::Rng;

/// Rooms at which a piece gets its second byte of length, and the smallest and largest.
const EDGES: [usize; 11] = [20, 21, 244, 258, 259, 260, 261, 262, 263, 511, 512];

/// The other limits, each with the smallest of those rooms at which it is tried: many packets of a
/// long message, with every lent byte compared at each, are dear.
const LIMITS: &[(u64, usize)] = &[
    (1, 20),
    (2, 20),
    (19, 20),
    (20, 20),
    (255, 20),
    (256, 20),
    (20_000, 244),
    (65_535, 511),
];

pub fn run(c: &mut Comparison<'_>, rng: &mut Rng, plan: Plan) -> Compared<()> {
    at_rooms(c, rng, plan)?;
    for &(limit, least) in LIMITS {
        let mut desk = Desk::new(rng, limit);
        for room in EDGES.into_iter().filter(|&room| room >= least) {
            c.at = format!("messages at room {room} and limit {limit}");
            for size in [limit as usize - 1, limit as usize] {
                desk.message(c, rng, room, size)?;
            }
            // One byte too many is 15.
            desk.writer.inputs[0].push(0);
            let returned = desk.write(c, rng, room, 0)?;
            c.hold(returned == 15, "15 above the limit", &desk.writer)?;
        }
    }
    Ok(())
}

/// All rooms at the limit of the worked cases.
fn at_rooms(c: &mut Comparison<'_>, rng: &mut Rng, plan: Plan) -> Compared<()> {
    let mut desk = Desk::new(rng, LIMIT);
    // Below scale 1 only some rooms are run, so that a short run stays short; above it all of them
    // several times, with other messages.
    let stride = (1.0 / plan.scale).clamp(1.0, 97.0) as usize;
    let rounds = plan.scale.max(1.0) as usize;
    let every = |room: &usize| room.is_multiple_of(stride) || EDGES.contains(room);
    for room in (0..rounds).flat_map(|_| (20..=512).filter(every)) {
        for size in 0..=64 {
            desk.message(c, rng, room, size)?;
            // Every place, whether a piece begins there or not.
            for place in 0..=size + 1 {
                desk.write(c, rng, room, place as u64)?;
            }
        }
        for size in boundaries(room) {
            desk.message(c, rng, room, size)?;
            for _ in 0..4 {
                let place = rng.index(size + 2) as u64;
                desk.write(c, rng, room, place)?;
            }
        }
    }
    Ok(())
}

/// Sizes at which something changes: one or two bytes of length, a piece more or less, the largest.
fn boundaries(room: usize) -> Vec<usize> {
    let mut sizes: Vec<usize> = [
        65, 127, 128, 129, 254, 255, 256, 257, 258, 259, 300, 490, 505, 506, 507, 508, 509, 510,
        511, 512, 513, 760, 1_023, 1_024, 1_025, 2_047, 2_048, 2_049, 4_093, 4_094, 4_095, 4_096,
    ]
    .to_vec();
    // What the whole pieces of this room hold, one after the other.
    let ends: Vec<usize> = low_energy::pieces(4_096, room)
        .map(|piece| piece.place + piece.size)
        .collect();
    let sixteen = ends.iter().skip(14).take(3);
    let chosen = ends
        .iter()
        .take(3)
        .chain(sixteen)
        .chain(ends.iter().rev().take(2));
    sizes.extend(chosen.flat_map(|&end| [end - 1, end, end + 1]));
    sizes.retain(|&size| size <= 4_096);
    sizes.sort_unstable();
    sizes.dedup();
    sizes
}

/// One writer and one receiver, kept over many messages.
struct Desk {
    limit: u64,
    writer: Call,
    receiver: Call,
}

impl Desk {
    fn new(rng: &mut Rng, limit: u64) -> Desk {
        let writer = Call::new(Operation::PacketWrite);
        let receiver = Call::new(Operation::ReceiverAccept)
            .state(&packets::idle(limit))
            .lent(rng.bytes(low_energy::buffer(limit)));
        Desk {
            limit,
            writer,
            receiver,
        }
    }

    /// A new message of this size, written and received whole.
    fn message(
        &mut self,
        c: &mut Comparison<'_>,
        rng: &mut Rng,
        room: usize,
        size: usize,
    ) -> Compared<()> {
        self.writer.inputs[0].resize(size, 0);
        rng.fill(&mut self.writer.inputs[0]);
        let stream = *rng.pick(&Stream::ALL);
        let wish = [
            u64::from(stream.number()),
            rng.below(16),
            rng.below(16),
            rng.below(2),
        ];
        self.writer.numbers = [&[room as u64, self.limit], &wish[..], &[0]].concat();
        let mut place = 0;
        loop {
            let returned = self.write(c, rng, room, place)?;
            let [written, next] = self.writer.answer[..] else {
                panic!("two numbers")
            };
            let last = next == size as u64;
            self.receiver.inputs[0].clear();
            let packet = self.writer.lent.iter().take(written as usize);
            self.receiver.inputs[0].extend(packet);
            let start = stream.places().start * self.limit as usize;
            let message = &self.writer.inputs[0];
            let expected = [
                u64::from(last),
                wish[0],
                wish[1],
                0,
                if last { size as u64 } else { 0 },
                u64::from(last) & wish[3],
                0,
                stream.places().start as u64,
            ];
            // The writer's packets are always taken, and the last gives the message.
            c.hold(returned == 0, "a packet is written", &self.writer)?;
            // Every sequence and size that are in range; the ACK comes with the last packet alone,
            // and only if it was wished for.
            let sequence = rng.below(16);
            let size = rng.between(6, 9);
            let mut reply = rng.bytes(size);
            self.receiver.numbers[0] = sequence;
            self.receiver.reply.clone_from(&reply);
            if last && wish[3] == 1 {
                let ack = low_energy::acknowledgement(stream, wish[1] as u8, sequence as u8, true);
                reply[..6].copy_from_slice(&ack);
            }
            let returned = c.run(&mut self.receiver)?;
            let part = start..start + next as usize;
            let holds = returned == 0
                && self.receiver.answer == expected
                && self.receiver.reply == reply
                && self.receiver.lent[part] == message[..next as usize];
            c.hold(holds, "a packet of the writer is taken", &self.receiver)?;
            if last {
                return Ok(());
            }
            place = next;
        }
    }

    /// One packet, written at a place into an output of at least the room.
    fn write(
        &mut self,
        c: &mut Comparison<'_>,
        rng: &mut Rng,
        room: usize,
        place: u64,
    ) -> Compared<u64> {
        self.writer.numbers[6] = place;
        let spare = if rng.once_in(4) { rng.index(9) } else { 0 };
        self.writer.lent.resize(room + spare, 0x3C);
        c.run(&mut self.writer)
    }
}
