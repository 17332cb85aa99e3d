//! Document 02, No. 8, "Is their sender lawful?": a capture of one direction, and whether our writer would write its
//! packets. Every packet is held to the one that the model's writer writes for it.

use crate::low_energy::{acknowledgement, packet, pieces, Packet, Part, Piece, Stream, Wish};
use crate::refusal::{limit_in, Refusal};
use std::ops::Range;

/// "version byte 01".
const VERSION: u8 = 1;
/// "a capture of up to 65,536 bytes from standard input".
pub const LARGEST: usize = 65_536;

/// "say yes exactly when there is a list of transactions ..", "A no tells the place of the length of the first packet
/// after which no continuation could be lawful, or that the capture ends inside a transaction."
#[derive(Clone, Copy, Debug, PartialEq, Eq)]
pub enum Answer {
    Lawful,
    Open,
    Unlawful(usize),
}

/// A refusal, and the place that it is about: that of a length for 41 and 42, and else 0.
pub type Refused = (Refusal, usize);

/// The bytes behind "version byte 01".
fn behind_version(capture: &[u8]) -> Result<&[u8], Refused> {
    match capture.split_first() {
        Some((&VERSION, rest)) => Ok(rest),
        _ => Err((Refusal::Version, 0)),
    }
}

/// "each packet with a two-byte big-endian length before it": how long the one at the front of these bytes is.
fn length_of(rest: &[u8]) -> Result<usize, Refusal> {
    let (length, after) = rest.split_first_chunk().ok_or(Refusal::RecordCut)?;
    let length = usize::from(u16::from_be_bytes(*length));
    if length == 0 {
        return Err(Refusal::RecordLength);
    }
    if after.len() < length {
        return Err(Refusal::RecordCut);
    }
    Ok(length)
}

/// The packets with the places of their lengths.
pub(crate) fn packets(capture: &[u8]) -> Result<Vec<(usize, &[u8])>, Refused> {
    let mut rest = behind_version(capture)?;
    let mut found = Vec::new();
    while !rest.is_empty() {
        let place = capture.len() - rest.len();
        let length = length_of(rest).map_err(|refusal| (refusal, place))?;
        let (packet, after) = rest[2..].split_at(length);
        found.push((place, packet));
        rest = after;
    }
    Ok(found)
}

/// Where the packet lies whose length stands at a place, as a record of an outbox is read: nothing at the end, and 15 for
/// place 0 and beyond the end.
pub fn packet_at(capture: &[u8], place: u64) -> Result<Option<Range<usize>>, Refused> {
    behind_version(capture)?;
    let place = usize::try_from(place).unwrap_or(usize::MAX);
    let rest = capture.get(place..).filter(|_| place != 0);
    let rest = rest.ok_or((Refusal::Argument, 0))?;
    if rest.is_empty() {
        return Ok(None);
    }
    let length = length_of(rest).map_err(|refusal| (refusal, place))?;
    Ok(Some(place + 2..place + 2 + length))
}

/// A transaction some of whose packets have come: what its first packet told, and the bytes so far.
#[derive(Clone)]
struct Transaction {
    wish: Wish,
    message: Vec<u8>,
    pieces: Vec<Piece>,
    come: usize,
}

impl Transaction {
    /// The only transaction that a first packet can begin: "id, first sequence .. and payload within the limit".
    fn begun_by(first: &[u8], stream: Stream, room: usize, limit: usize) -> Option<Transaction> {
        let &[zeroth, second, _, high, low, ..] = first else {
            return None;
        };
        let total = usize::from(u16::from_be_bytes([high, low]));
        (total <= limit).then(|| Transaction {
            wish: Wish {
                stream,
                id: zeroth & 15,
                sequence: second >> 4,
                ack: false,
            },
            message: vec![0; total],
            pieces: pieces(total, room).collect(),
            come: 0,
        })
    }

    /// With the next packet, if it is the one that our writer writes, for one of the two wishes.
    fn with(mut self, bytes: &[u8]) -> Option<Transaction> {
        let piece = self.pieces[self.come];
        let start = bytes.len().checked_sub(piece.size)?;
        self.message[piece.place..piece.place + piece.size].copy_from_slice(&bytes[start..]);
        self.come += 1;
        let written = [false, true].into_iter().any(|ack| {
            let wish = Wish { ack, ..self.wish };
            packet(wish, &self.message, piece) == bytes
        });
        written.then_some(self)
    }

    fn is_whole(&self) -> bool {
        self.come == self.pieces.len()
    }
}

/// "ACK packets may stand anywhere."
fn is_acknowledgement(bytes: &[u8], stream: Stream) -> bool {
    let &[zeroth, first, ..] = bytes else {
        return false;
    };
    [false, true]
        .into_iter()
        .any(|positive| acknowledgement(stream, zeroth & 15, first >> 4, positive) == bytes)
}

/// How the packets end: what is open on each stream, and where they stop, the packet that no continuation could make lawful.
struct Walked<'a> {
    open: [Option<Transaction>; 3],
    stopped: Option<(usize, &'a [u8])>,
}

impl Walked<'_> {
    fn answer(&self) -> Answer {
        match self.stopped {
            Some((place, _)) => Answer::Unlawful(place),
            None if self.open.iter().all(Option::is_none) => Answer::Lawful,
            None => Answer::Open,
        }
    }
}

/// "Refusals: 13, then 17, then before any packet is judged 40 (for 02 too), 42 .. and 41".
fn walk(capture: &[u8], room: u64, limit: u64) -> Result<Walked<'_>, Refused> {
    if !(20..=512).contains(&room) {
        return Err((Refusal::Room, 0));
    }
    let limit = limit_in(limit).map_err(|refusal| (refusal, 0))?;
    let mut open: [Option<Transaction>; 3] = [None, None, None];
    for (place, bytes) in packets(capture)? {
        let stopped = Some((place, bytes));
        let Some(stream) = Stream::of(u64::from(bytes[0] >> 4)) else {
            return Ok(Walked { open, stopped });
        };
        if is_acknowledgement(bytes, stream) {
            continue;
        }
        let slot = &mut open[stream as usize];
        let begun = slot
            .clone()
            .or_else(|| Transaction::begun_by(bytes, stream, room as usize, limit));
        let Some(taken) = begun.and_then(|transaction| transaction.with(bytes)) else {
            return Ok(Walked { open, stopped });
        };
        *slot = (!taken.is_whole()).then_some(taken);
    }
    Ok(Walked {
        open,
        stopped: None,
    })
}

pub fn judge(capture: &[u8], room: u64, limit: u64) -> Result<Answer, Refused> {
    Ok(walk(capture, room, limit)?.answer())
}

/// What is open on a stream.
#[derive(Clone, Copy, Debug, PartialEq, Eq)]
pub struct OpenOn {
    pub id: u8,
    pub left: usize,
    pub sequence: u8,
}

/// A packet that our writer writes.
#[derive(Clone, Copy, Debug, PartialEq, Eq)]
pub struct Next {
    pub id: u8,
    pub sequence: u8,
    pub kind: u8,
    pub length: usize,
    pub extended: bool,
    pub last: bool,
}

#[derive(Clone, Copy, Debug, PartialEq, Eq)]
pub enum Expected {
    Nothing,
    AnyFirst,
    First(Next),
    Next(Next),
}

/// A packet that came; what it says of its payload, if our reader takes it.
#[derive(Clone, Copy, Debug, PartialEq, Eq)]
pub struct Came {
    pub refusal: Option<Refusal>,
    pub size: usize,
    pub stream: u8,
    pub id: u8,
    pub sequence: u8,
    pub kind: u8,
    pub flag: bool,
    pub extended: bool,
    pub total: usize,
    pub length: usize,
}

pub struct Why {
    pub answer: Answer,
    pub open: [Option<OpenOn>; 3],
    pub stopped: Option<(Came, Expected)>,
}

impl Transaction {
    /// The packet that our writer writes next, by its bytes.
    fn next(&self) -> Next {
        let piece = self.pieces[self.come];
        let bytes = packet(self.wish, &self.message, piece);
        Next {
            id: bytes[0] & 15,
            sequence: bytes[1] >> 4,
            kind: bytes[1] >> 2 & 3,
            length: piece.size,
            extended: bytes[1] & 1 == 1,
            last: piece.place + piece.size == self.message.len(),
        }
    }

    fn open_on(&self) -> OpenOn {
        OpenOn {
            id: self.wish.id,
            left: self.message.len() - self.pieces[self.come].place,
            sequence: self.next().sequence,
        }
    }
}

fn came(bytes: &[u8], limit: u64) -> Came {
    let byte = |place: usize| bytes.get(place).copied().unwrap_or(0);
    let read = Packet::read(limit, bytes);
    let (total, length) = match read.map(|packet| packet.part) {
        Ok(Part::First { total, piece }) => (total, piece.len()),
        Ok(Part::Continuation { piece } | Part::Last { piece }) => (0, piece.len()),
        Ok(Part::Acknowledgement) | Err(_) => (0, 0),
    };
    Came {
        refusal: read.err(),
        size: bytes.len(),
        stream: byte(0) >> 4,
        id: byte(0) & 15,
        sequence: byte(1) >> 4,
        kind: byte(1) >> 2 & 3,
        flag: byte(1) & 2 != 0,
        extended: byte(1) & 1 != 0,
        total,
        length,
    }
}

/// "unlawful at a place with what was expected and what came": the transaction that is open says it; else the one that a
/// first packet, which our reader takes, would begin.
fn expected(walked: &Walked<'_>, bytes: &[u8], came: &Came, room: usize, limit: usize) -> Expected {
    let Some(stream) = Stream::of(came.stream.into()) else {
        return Expected::Nothing;
    };
    if let Some(open) = &walked.open[stream as usize] {
        return Expected::Next(open.next());
    }
    if came.refusal.is_some() || came.kind != 0 {
        return Expected::AnyFirst;
    }
    match Transaction::begun_by(bytes, stream, room, limit) {
        None => Expected::AnyFirst,
        Some(begun) => Expected::First(Next {
            id: 0,
            sequence: 0,
            ..begun.next()
        }),
    }
}

/// The judge's answer, and why.
pub fn why(capture: &[u8], room: u64, limit: u64) -> Result<Why, Refused> {
    let walked = walk(capture, room, limit)?;
    let stopped = walked.stopped.map(|(_, bytes)| {
        let came = came(bytes, limit);
        (
            came,
            expected(&walked, bytes, &came, room as usize, limit as usize),
        )
    });
    Ok(Why {
        answer: walked.answer(),
        open: [0, 1, 2].map(|place| walked.open[place].as_ref().map(Transaction::open_on)),
        stopped,
    })
}

/// "A program reads room and limit, two bytes each, big-endian, absent bytes 0, then a capture", and what it prints.
pub fn line(input: &[u8]) -> String {
    let byte = |place: usize| u64::from(input.get(place).copied().unwrap_or(0));
    let capture = input.get(4..).unwrap_or(&[]);
    if capture.len() > LARGEST {
        return format!("refused {}\n", Refusal::Lent);
    }
    let (room, limit) = (byte(0) << 8 | byte(1), byte(2) << 8 | byte(3));
    match judge(capture, room, limit) {
        Ok(Answer::Lawful) => "lawful\n".to_string(),
        Ok(Answer::Open) => "open\n".to_string(),
        Ok(Answer::Unlawful(place)) => format!("unlawful at {place}\n"),
        Err((refusal, _)) => format!("refused {refusal}\n"),
    }
}
