//! Another sender, judged by a capture, and why it is not lawful.

use crate::calls::{self, Told};
use crate::sizes;
use crate::{Limit, Refusal, Refused, Room, Verdict};

/// What is open on a stream.
#[derive(Clone, Copy, Debug, PartialEq, Eq)]
pub struct OpenTransaction {
    /// Its id, 0 to 15.
    pub id: u8,
    /// The bytes still to come.
    pub left: usize,
    /// The next packet's sequence.
    pub sequence: u8,
}

/// A packet that came and is not lawful. The fields of a byte that it does not have are 0.
#[derive(Clone, Copy, Debug, PartialEq, Eq)]
pub struct Came {
    /// What a [`Link`](crate::Link) refuses it by, whatever is open; `None` if it is a packet that one could take.
    pub refusal: Option<Refusal>,
    /// Its bytes in all.
    pub size: usize,
    /// The number that stands for its stream, 0 to 15.
    pub stream: u8,
    /// The transaction's, 0 to 15.
    pub id: u8,
    /// Its own, 0 to 15.
    pub sequence: u8,
    /// Its type, 0 to 3.
    pub kind: u8,
    /// Its ACK flag.
    pub ack: bool,
    /// Whether its payload's length has two bytes.
    pub extended: bool,
    /// The whole message's length, of a first packet that is not refused; else 0.
    pub total: usize,
    /// The payload's length, of a packet that is not refused; else 0.
    pub length: usize,
}

/// A packet that our writer writes.
#[derive(Clone, Copy, Debug, PartialEq, Eq)]
pub struct NextPacket {
    /// Its type, 0 to 2.
    pub kind: u8,
    /// The payload's length.
    pub length: usize,
    /// Whether that has two bytes.
    pub extended: bool,
    /// Whether it takes all that is left: only then may its ACK flag be 1.
    pub last: bool,
}

/// What was expected of a packet that is not lawful.
#[derive(Clone, Copy, Debug, PartialEq, Eq)]
pub enum Expected {
    /// Nothing: its stream is none.
    Nothing,
    /// A first packet of any message: nothing is open, and what came tells no total.
    AnyFirst,
    /// The first packet of a message of this total, with any id and sequence.
    First(NextPacket),
    /// The next packet of the transaction that is open.
    Next {
        /// The transaction's.
        id: u8,
        /// The packet's.
        sequence: u8,
        /// The rest.
        packet: NextPacket,
    },
}

/// A verdict, and why.
#[derive(Clone, Copy, Debug, PartialEq, Eq)]
pub struct Why {
    /// As [`judge`](crate::judge) gives it.
    pub verdict: Verdict,
    /// What is open on control, OTA and Alexa: at the end, and of an unlawful capture before the packet that decides.
    pub open: [Option<OpenTransaction>; 3],
    /// That packet, and what was expected.
    pub stopped: Option<(Came, Expected)>,
}

fn open(row: [u64; 4]) -> Option<OpenTransaction> {
    let [opened, id, left, sequence] = row;
    (opened == 1).then_some(OpenTransaction {
        id: id as u8,
        left: left as usize,
        sequence: sequence as u8,
    })
}

fn expected(row: &calls::CaptureWhy) -> Expected {
    let packet = NextPacket {
        kind: row.expected_kind as u8,
        length: row.expected_length as usize,
        extended: row.expected_extended == 1,
        last: row.expected_last == 1,
    };
    match row.expected {
        sizes::EXPECTED_ANY_FIRST => Expected::AnyFirst,
        sizes::EXPECTED_FIRST => Expected::First(packet),
        sizes::EXPECTED_NEXT => Expected::Next {
            id: row.expected_id as u8,
            sequence: row.expected_sequence as u8,
            packet,
        },
        _ => Expected::Nothing,
    }
}

fn came(row: &calls::CaptureWhy) -> Came {
    Came {
        refusal: Refusal::of(row.refusal),
        size: row.size as usize,
        stream: row.stream as u8,
        id: row.id as u8,
        sequence: row.sequence as u8,
        kind: row.kind as u8,
        ack: row.ack == 1,
        extended: row.extended == 1,
        total: row.total as usize,
        length: row.length as usize,
    }
}

/// Judges a capture as [`judge`](crate::judge) does, and tells why.
///
/// ```
/// use pitokaenge::{why, Expected, Limit, Room, Verdict};
///
/// let mut capture = b"\x01\x00\x14\x00\x00\x00\x00\x14\x0E..............".to_vec();
/// let open = why(&capture, Room::LEAST, Limit::of::<4096>())?;
/// assert_eq!((open.verdict, open.open[0].unwrap().left), (Verdict::Open, 6));
///
/// // The last packet has a byte too many.
/// capture.extend_from_slice(b"\x00\x0A\x00\x18\x07.......");
/// let told = why(&capture, Room::LEAST, Limit::of::<4096>())?;
/// assert_eq!(told.verdict, Verdict::Unlawful { place: 23 });
/// let (came, expected) = told.stopped.unwrap();
/// assert_eq!((came.refusal, came.length), (None, 7));
/// assert!(matches!(expected, Expected::Next { id: 0, sequence: 1, packet } if packet.length == 6));
/// # Ok::<(), pitokaenge::Refused>(())
/// ```
pub fn why(capture: &[u8], room: Room, limit: Limit) -> Result<Why, Refused> {
    let row = match calls::pito_capture_why(capture, room.get() as u64, limit.get() as u64) {
        Ok(row) => row,
        Err(Told { refusal, row }) => {
            return Err(match refusal {
                Refusal::RecordCut | Refusal::RecordLength => Refused::at(refusal, row.place),
                _ => refusal.into(),
            })
        }
    };
    let place = row.place as usize;
    let (verdict, stopped) = match row.outcome {
        sizes::LAWFUL => (Verdict::Lawful, None),
        sizes::OPEN => (Verdict::Open, None),
        _ => (
            Verdict::Unlawful { place },
            Some((came(&row), expected(&row))),
        ),
    };
    Ok(Why {
        verdict,
        open: [
            open([
                row.control_opened,
                row.control_id,
                row.control_left,
                row.control_sequence,
            ]),
            open([row.ota_opened, row.ota_id, row.ota_left, row.ota_sequence]),
            open([
                row.alexa_opened,
                row.alexa_id,
                row.alexa_left,
                row.alexa_sequence,
            ]),
        ],
        stopped,
    })
}
