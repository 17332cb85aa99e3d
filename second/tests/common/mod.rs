//! Low Energy at the limit of the worked cases.

use second::classic::LIMIT;
use second::low_energy::{self, Accepted, Receiver, Reply, Slots};
use second::refusal::Refusal;

/// The size of the lent buffer.
pub const BUFFER: usize = low_energy::buffer(LIMIT);

/// A packet, given to a receiver with these slots, with answer sequence 5; the limit stays, and the
/// answer buffer has an ACK exactly if one is wanted.
pub fn accept(
    slots: Slots,
    buffer: &mut [u8],
    packet: &[u8],
) -> (Slots, Result<Accepted, Refusal>) {
    let state = Receiver {
        limit: LIMIT,
        slots,
    };
    let mut answer = [0xDD; 7];
    let reply = Reply {
        sequence: 5,
        buffer: &mut answer,
    };
    let (after, told) = low_energy::accept(state, buffer, packet, reply);
    assert_eq!(after.limit, LIMIT);
    let mut expected = [0xDD; 7];
    if let Ok(Accepted::Finished {
        stream,
        id,
        ack_wanted: true,
        ..
    }) = told
    {
        let ack = [stream.number() << 4 | id, 0x5E, 0, 2, 1, 0];
        expected[..6].copy_from_slice(&ack);
    }
    assert_eq!(answer, expected);
    (after.slots, told)
}
