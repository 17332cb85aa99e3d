//! Low Energy: one packet read, at the front of some bytes and at a place of a capture.

use crate::calls::{self, Told};
use crate::sizes::{self, FIRST_PLACE};
use crate::{told, Limit, Refusal, Refused, Stream};

/// What a packet is.
#[derive(Clone, Copy, Debug, PartialEq, Eq)]
pub enum PacketKind {
    /// The first of a message, or its only one.
    First {
        /// The whole message's length.
        total: usize,
    },
    /// One between the first and the last.
    Continuation,
    /// The last of a message of more than one.
    Last,
    /// An ACK.
    Ack,
    /// A NACK.
    Nack,
}

/// What a packet says ([`read_packet`]).
#[derive(Clone, Copy, Debug, PartialEq, Eq)]
pub struct ReadPacket<'a> {
    /// The packet itself, without what stands behind it.
    pub bytes: &'a [u8],
    /// The stream that it is of.
    pub stream: Stream,
    /// The transaction's, 0 to 15.
    pub id: u8,
    /// Its own, 0 to 15.
    pub sequence: u8,
    /// First, continuation, last, ACK or NACK.
    pub kind: PacketKind,
    /// Whether it asks for an ACK.
    pub ack_wanted: bool,
    /// Whether its payload's length has two bytes.
    pub extended: bool,
    /// Its piece of the message; an ACK and a NACK have none.
    pub payload: &'a [u8],
}

/// Reads the packet at the front of some bytes; what stands behind it is not looked at. Refused as a
/// [`Link`](crate::Link) refuses a packet by itself: 2, 3, 12, 4, 5, 6, 7, 8. Bytes
/// that end before the packet does are: by 2 in its head, by 5 in its payload; an ACK or NACK behind its second byte by 12.
///
/// ```
/// use pitokaenge::{read_packet, Limit, PacketKind, Refusal, Stream};
///
/// let limit = Limit::of::<4096>();
/// let joined = b"\x61\x00\x00\x00\x03\x02AB\x61\x1A\x01C";
/// let first = read_packet(joined, limit)?;
/// assert_eq!(first.bytes, &joined[..8]);
/// assert_eq!((first.stream, first.id, first.sequence), (Stream::Alexa, 1, 0));
/// assert_eq!((first.kind, first.payload), (PacketKind::First { total: 3 }, &b"AB"[..]));
///
/// let last = read_packet(&joined[8..], limit)?;
/// assert_eq!((last.kind, last.payload, last.ack_wanted), (PacketKind::Last, &b"C"[..], true));
/// assert_eq!(read_packet(&joined[8..11], limit), Err(Refusal::PacketLength));
/// # Ok::<(), Refusal>(())
/// ```
pub fn read_packet(bytes: &[u8], limit: Limit) -> Result<ReadPacket<'_>, Refusal> {
    let row = calls::pito_packet_read(bytes, limit.get() as u64)?;
    let flag = row.ack == 1;
    let kind = match row.kind {
        sizes::PACKET_FIRST => PacketKind::First {
            total: row.total as usize,
        },
        sizes::PACKET_CONTINUATION => PacketKind::Continuation,
        sizes::PACKET_LAST => PacketKind::Last,
        _ if flag => PacketKind::Ack,
        _ => PacketKind::Nack,
    };
    Ok(ReadPacket {
        bytes: told::part(bytes, 0, row.end)?,
        stream: told::stream(row.stream)?,
        id: row.id as u8,
        sequence: row.sequence as u8,
        kind,
        ack_wanted: flag && kind != PacketKind::Ack,
        extended: row.extended == 1,
        payload: told::part(bytes, row.start, row.length)?,
    })
}

/// A packet of a capture.
#[derive(Clone, Copy, Debug, PartialEq, Eq)]
pub struct CapturedPacket<'a> {
    /// Where its length stands.
    pub place: usize,
    /// The packet.
    pub bytes: &'a [u8],
    /// Where the next one's length stands, or the capture ends.
    pub next: usize,
}

/// Reads the packet at a place of a capture, as [`judge`](crate::judge) takes one: at [`FIRST_PLACE`], or where the packet
/// before tells the next; `None` at the end. Refused by 40, 15 (place 0, or beyond the bytes), and with the place by 41, 42.
///
/// ```
/// use pitokaenge::{read_captured, CapturedPacket, Refusal};
///
/// let capture = b"\x01\x00\x02AB\x00\x01C";
/// let packet = read_captured(capture, 1)?.unwrap();
/// assert_eq!(packet, CapturedPacket { place: 1, bytes: b"AB", next: 5 });
/// assert_eq!(read_captured(capture, 8)?, None);
///
/// let cut = read_captured(&capture[..7], 5).unwrap_err();
/// assert_eq!((cut.refusal, cut.place), (Refusal::RecordCut, Some(5)));
/// # Ok::<(), Refusal>(())
/// ```
pub fn read_captured(capture: &[u8], place: usize) -> Result<Option<CapturedPacket<'_>>, Refused> {
    let row = match calls::pito_capture_packet(capture, place as u64) {
        Ok(row) => row,
        Err(Told { refusal, row }) => {
            return Err(match refusal {
                Refusal::RecordCut | Refusal::RecordLength => Refused::at(refusal, row.place),
                _ => refusal.into(),
            })
        }
    };
    if row.outcome == sizes::END {
        return Ok(None);
    }
    Ok(Some(CapturedPacket {
        place,
        bytes: told::part(capture, row.start, row.length)?,
        next: row.next as usize,
    }))
}

/// The packets of a capture: an iterator that ends after the first refusal.
///
/// ```
/// use pitokaenge::{CapturedPackets, Refused};
///
/// let packets: Result<Vec<_>, Refused> = CapturedPackets::of(b"\x01\x00\x02AB\x00\x01C").collect();
/// let bytes: Vec<_> = packets?.iter().map(|packet| packet.bytes).collect();
/// assert_eq!(bytes, [&b"AB"[..], b"C"]);
/// # Ok::<(), Refused>(())
/// ```
#[must_use = "an iterator does nothing until it is asked for the next"]
#[derive(Clone, Debug)]
pub struct CapturedPackets<'a> {
    capture: &'a [u8],
    /// Of the next packet's length, until the end or a refusal.
    place: Option<usize>,
}

impl<'a> CapturedPackets<'a> {
    /// Of any bytes.
    pub fn of(capture: &'a [u8]) -> CapturedPackets<'a> {
        CapturedPackets {
            capture,
            place: Some(FIRST_PLACE),
        }
    }
}

impl<'a> Iterator for CapturedPackets<'a> {
    type Item = Result<CapturedPacket<'a>, Refused>;

    fn next(&mut self) -> Option<Result<CapturedPacket<'a>, Refused>> {
        let packet = read_captured(self.capture, self.place.take()?).transpose()?;
        if let Ok(packet) = packet {
            self.place = Some(packet.next);
        }
        Some(packet)
    }
}
