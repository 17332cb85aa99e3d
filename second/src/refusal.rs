//! The numbers of the paper's table "Refusal numbers", and those that change requests add.

use std::fmt;

/// One line of the table each; the discriminant is the paper's number.
#[derive(Clone, Copy, Debug, PartialEq, Eq, PartialOrd, Ord, Hash)]
#[repr(u64)]
pub enum Refusal {
    /// "lent buffer of the wrong size, unlawful state, or used bytes beyond the buffer"
    Lent = 1,
    /// "packet under 2 bytes, or types 0 to 2 under their header"
    ShortPacket = 2,
    /// "stream not 0, 2, 6"
    Stream = 3,
    /// "reserved byte of a first packet not 0"
    Reserved = 4,
    /// "packet length is not header plus payload length"
    PacketLength = 5,
    /// "total over 4,096"
    Total = 6,
    /// "payload empty, but for a first packet with total 0"
    EmptyPayload = 7,
    /// "first payload above its total"
    AboveTotal = 8,
    /// "type 1 or 2, no open transaction of that id in the stream"
    NotOpen = 9,
    /// "sequence not the next"
    OutOfOrder = 10,
    /// "type 1 reaches or passes the total, or type 2 misses it"
    MissesTotal = 11,
    /// "type 3 not exactly an ACK or NACK"
    NoAcknowledgement = 12,
    /// "room not 20 to 512"
    Room = 13,
    /// "output smaller than what is written; for message packets, than the room"
    Output = 14,
    /// "writer argument out of its range"
    Argument = 15,
    /// "a limit of 0 or above 65,535" (No. 6)
    Limit = 17,
    /// "a first packet whose id isn't open and whose stream has no idle slot" (No. 11)
    NoSlot = 18,
    /// "a sum that would pass 64 bits" (No. 12)
    Sum = 19,
    /// "F0 inside a frame"
    StartInside = 20,
    /// "F1 in the header, or under 2 bytes stored"
    EarlyEnd = 21,
    /// "packet id not 02, error id not 00, or F2 in the header"
    Header = 22,
    /// "F1 or a byte other than 00, 02, 03 after F2"
    Escape = 23,
    /// "a 4,099th byte to store"; by No. 6 one when limit + 2 are held
    Full = 24,
    /// "checksum differs"
    Checksum = 25,
    /// "more payload offered than is still missing"
    TooMuch = 26,
    /// "message ends inside a field"
    EndsInside = 30,
    /// "varint whose tenth byte is above 01"
    Varint = 31,
    /// "field 0 or above 536,870,911; wire type 3, 4, 6, 7"
    Tag = 32,
    /// "known field with another wire type"
    WireType = 33,
    /// "second payload member, or a ninth transport"; by No. 1 "a second firmware_information" and
    /// "a ninth component" too
    TooMany = 34,
    /// "a string not well formed, told with its field and the place in it of the first bad sequence"
    /// (No. 3)
    Text = 36,
    /// "outbox empty, or version not 01"
    Version = 40,
    /// "record cut short, told with the place of its length"
    RecordCut = 41,
    /// "record length 0 or over 4,097"
    RecordLength = 42,
    /// "record's stream not 0, 2, 6"
    RecordStream = 43,
    /// "a payload over 4,096 on the way to 01, told with the first such record's place" (No. 7)
    RecordLong = 46,
    /// "a profile rule broken, told with the lowest field number" (No. 1)
    Profile = 50,
}

impl Refusal {
    /// The paper's number.
    pub fn number(self) -> u64 {
        self as u64
    }
}

impl fmt::Display for Refusal {
    fn fmt(&self, f: &mut fmt::Formatter<'_>) -> fmt::Result {
        write!(f, "{}", self.number())
    }
}

/// A refusal with what is told beside its number: the field that goes with 36 and 50, the place that
/// goes with 36.
#[derive(Clone, Copy, Debug, PartialEq, Eq)]
pub struct Broken {
    pub refusal: Refusal,
    pub field: Option<u64>,
    pub place: Option<u64>,
}

impl From<Refusal> for Broken {
    fn from(refusal: Refusal) -> Broken {
        Broken {
            refusal,
            field: None,
            place: None,
        }
    }
}

/// The limit of a link: 1 to 65,535 bytes, or 17.
pub fn limit_in(limit: u64) -> Result<usize, Refusal> {
    match limit {
        1..=65_535 => Ok(limit as usize),
        _ => Err(Refusal::Limit),
    }
}

/// Puts what a writer made into the output: "Writers but appending fill from the first byte; none
/// touches more than it writes", and 14 is an "output smaller than what is written".
pub(crate) fn deliver(made: &[u8], output: &mut [u8]) -> Result<usize, Refusal> {
    output
        .get_mut(..made.len())
        .ok_or(Refusal::Output)?
        .copy_from_slice(made);
    Ok(made.len())
}
