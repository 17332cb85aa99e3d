//! Low Energy: messages cut into packets, ACKs and NACKs.

use crate::calls;
use crate::sizes::{ACK_SIZE, LARGEST_LIMIT, LARGEST_ROOM};
use crate::{told, Limit, Refusal, Room, Stream};
use core::fmt;
use core::ops::Deref;

/// How a message is sent: its packets are [`packets`](Transaction::packets).
#[derive(Clone, Copy, Debug, PartialEq, Eq)]
pub struct Transaction {
    /// The link's largest packet.
    pub room: Room,
    /// The link's largest message.
    pub limit: Limit,
    /// The stream that the message goes over.
    pub stream: Stream,
    /// 0 to 15.
    pub id: u8,
    /// The first packet's, 0 to 15; each later packet has the next one by itself.
    pub sequence: u8,
    /// Whether the last packet asks for an ACK.
    pub ack_wanted: bool,
}

impl Transaction {
    /// The packets of a message, one after another. Refused by 15: an id or sequence above 15, a message over the limit.
    ///
    /// ```
    /// use pitokaenge::{Limit, Refusal, Room, Stream, Transaction};
    ///
    /// let transaction = Transaction {
    ///     room: Room::LEAST,
    ///     limit: Limit::of::<4096>(),
    ///     stream: Stream::Alexa,
    ///     id: 1,
    ///     sequence: 0,
    ///     ack_wanted: true,
    /// };
    /// let mut sent = Vec::new();
    /// for packet in transaction.packets(&[b'.'; 35])? {
    ///     sent.push(packet.to_vec()); // or to the radio
    /// }
    /// assert_eq!(sent[0], b"\x61\x00\x00\x00\x23\x0E..............");
    /// assert_eq!(sent[1], b"\x61\x14\x11.................");
    /// assert_eq!(sent[2], b"\x61\x2A\x04....");
    ///
    /// let beyond = Transaction { id: 16, ..transaction };
    /// assert_eq!(beyond.packets(b"").err(), Some(Refusal::Argument));
    /// # Ok::<(), Refusal>(())
    /// ```
    pub fn packets(self, message: &[u8]) -> Result<Packets<'_>, Refusal> {
        let packets = Packets {
            transaction: self,
            message,
            place: Some(0),
        };
        // The output is judged last, so that an output of no bytes is refused only where all else is right.
        match packets.write(0, &mut []) {
            Err(Refusal::Output) => Ok(packets),
            Err(refusal) => Err(refusal),
            Ok(_) => Err(Refusal::Unfit),
        }
    }
}

/// The packets of a message ([`Transaction::packets`]): an iterator of [`Packet`]s. A box that has not 512 bytes to spare
/// takes them by [`write_next`](Packets::write_next).
#[must_use = "an iterator does nothing until it is asked for the next"]
#[derive(Clone, Debug)]
pub struct Packets<'a> {
    transaction: Transaction,
    message: &'a [u8],
    /// Of the next piece, until the last packet is written.
    place: Option<u64>,
}

impl Packets<'_> {
    fn write(&self, place: u64, output: &mut [u8]) -> Result<calls::PacketWrite, Refusal> {
        let Transaction {
            room,
            limit,
            stream,
            id,
            sequence,
            ack_wanted,
        } = self.transaction;
        let row = calls::pito_packet_write(
            room.get() as u64,
            limit.get() as u64,
            stream.number(),
            id.into(),
            sequence.into(),
            ack_wanted.into(),
            self.message,
            place,
            output,
        )?;
        Ok(row)
    }

    /// Writes the next packet into the output, and gives it; `None` after the last. Refused by 14 if the output is smaller
    /// than the room; the packet is then still the next.
    pub fn write_next<'o>(&mut self, output: &'o mut [u8]) -> Result<Option<&'o [u8]>, Refusal> {
        let Some(place) = self.place else {
            return Ok(None);
        };
        let row = self.write(place, output)?;
        self.place = (row.next_place != self.message.len() as u64).then_some(row.next_place);
        told::written(output, row.written).map(Some)
    }
}

impl Iterator for Packets<'_> {
    type Item = Packet;

    fn next(&mut self) -> Option<Packet> {
        let mut bytes = [0; LARGEST_ROOM];
        // All arguments are judged already, and no packet is larger than the room.
        let length = self.write_next(&mut bytes).ok()??.len();
        Some(Packet { bytes, length })
    }
}

/// A packet to send: it is its bytes, by `Deref`.
#[derive(Clone, Copy)]
pub struct Packet {
    bytes: [u8; LARGEST_ROOM],
    length: usize,
}

impl Deref for Packet {
    type Target = [u8];

    fn deref(&self) -> &[u8] {
        &self.bytes[..self.length]
    }
}

impl AsRef<[u8]> for Packet {
    fn as_ref(&self) -> &[u8] {
        self
    }
}

impl fmt::Debug for Packet {
    fn fmt(&self, f: &mut fmt::Formatter<'_>) -> fmt::Result {
        (**self).fmt(f)
    }
}

/// The ACK of a request: stream and id are the request's, the sequence is any from 0 to 15. Refused by 15.
/// A [`Link`](crate::Link) gives it with each message that wants one.
///
/// ```
/// use pitokaenge::{ack, nack, Refusal, Stream};
///
/// assert_eq!(ack(Stream::Alexa, 1, 0)?, *b"\x61\x0E\x00\x02\x01\x00");
/// assert_eq!(nack(Stream::Alexa, 1, 0)?, *b"\x61\x0C\x00\x02\x01\x03");
/// assert_eq!(ack(Stream::Alexa, 16, 0), Err(Refusal::Argument));
/// # Ok::<(), Refusal>(())
/// ```
pub fn ack(stream: Stream, id: u8, sequence: u8) -> Result<[u8; ACK_SIZE], Refusal> {
    acknowledge(stream, id, sequence, true)
}

/// The NACK of a request, as [`ack`].
pub fn nack(stream: Stream, id: u8, sequence: u8) -> Result<[u8; ACK_SIZE], Refusal> {
    acknowledge(stream, id, sequence, false)
}

fn acknowledge(
    stream: Stream,
    id: u8,
    sequence: u8,
    positive: bool,
) -> Result<[u8; ACK_SIZE], Refusal> {
    let mut bytes = [0; ACK_SIZE];
    calls::pito_ack_write(
        stream.number(),
        id.into(),
        sequence.into(),
        positive.into(),
        &mut bytes,
    )?;
    Ok(bytes)
}

/// Packets that stand joined, as a reply's do: an iterator of each one's bytes.
#[must_use = "an iterator does nothing until it is asked for the next"]
#[derive(Clone, Copy, Debug)]
pub struct Joined<'a>(pub(crate) &'a [u8]);

impl<'a> Joined<'a> {
    /// All of them.
    pub fn bytes(&self) -> &'a [u8] {
        self.0
    }
}

impl<'a> Iterator for Joined<'a> {
    type Item = &'a [u8];

    fn next(&mut self) -> Option<&'a [u8]> {
        // Of whatever total: the limit was the reply's.
        let row = calls::pito_packet_read(self.0, LARGEST_LIMIT as u64).ok()?;
        let (packet, rest) = self.0.split_at_checked(row.end as usize)?;
        self.0 = rest;
        Some(packet)
    }
}
