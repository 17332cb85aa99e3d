//! What the radio cost: captures added up.

use crate::calls::{self, Told};
use crate::sizes::{receiver_buffer, REPORT_ROW, SLOTS};
use crate::{Limit, Refusal, Refused, Slot, Stream};

/// What the packets of captures were, added up by stream. The default is the empty report.
///
/// ```
/// use pitokaenge::{sizes, Costs, Limit, Refusal, Report, Slot, Stream};
///
/// const LIMIT: usize = 64;
/// let packets: [&[u8]; 8] = [
///     b"\x03\x00\x00\x00\x02\x01\x07",
///     b"\x03\x00\x00\x00\x02\x01\x07",
///     b"\x03\x14\x01\x01",
///     b"\x03",
///     b"\x71\x00",
///     b"\x05\x00\x00\x00\x02\x01\x07",
///     b"\x20\x00\x00\x00\x01\x01\x09",
///     b"\x60\x0E\x00\x02\x01\x00",
/// ];
/// let mut capture = vec![1];
/// for packet in packets {
///     capture.extend_from_slice(&[0, packet.len() as u8]);
///     capture.extend_from_slice(packet);
/// }
/// // Lent to the link that takes the packets of a capture; what they hold before makes no difference.
/// let mut row = [Slot::default(); sizes::SLOTS];
/// let mut buffer = [0; sizes::receiver_buffer(LIMIT)];
///
/// let mut report = Report::default();
/// report.add(&capture, Limit::of::<LIMIT>(), &mut row, &mut buffer)?;
/// let control = Costs { firsts: 3, replaced: 1, dropped: 1, left_open: 1, bytes: 26, ..Costs::default() };
/// assert_eq!(report.of(Stream::Control), control);
/// let ota = Costs { firsts: 1, finished: 1, payload: 1, bytes: 7, ..Costs::default() };
/// assert_eq!(report.of(Stream::Ota), ota);
/// assert_eq!(report.of(Stream::Alexa).bytes, 6);
/// # Ok::<(), Refusal>(())
/// ```
#[derive(Clone, Copy, Debug, Default, PartialEq, Eq)]
pub struct Report {
    /// Seven for each stream: control, OTA, Alexa.
    numbers: [u64; REPORT_ROW],
}

/// What the packets of one stream were. First packets are as many as were finished, replaced, dropped and left open.
#[derive(Clone, Copy, Debug, Default, PartialEq, Eq)]
pub struct Costs {
    /// First packets that were accepted.
    pub firsts: u64,
    /// Messages that were finished.
    pub finished: u64,
    /// Open transactions that a first packet of their id replaced.
    pub replaced: u64,
    /// Transactions that were dropped, by 10 or 11.
    pub dropped: u64,
    /// Transactions that were open at the end of their capture.
    pub left_open: u64,
    /// The bytes of the finished messages.
    pub payload: u64,
    /// The bytes of all packets, of refused ones too.
    pub bytes: u64,
}

impl Report {
    /// Adds a capture of one direction of a Low Energy link ([`judge`](crate::judge) says what that is) with this limit.
    /// Refused by 1 if the buffer is too small, of a larger one no more is used; by 40, and by 41 and 42 with the place of the
    /// packet's length; by 19 if a number would be 2^64 or more. Every refusal leaves the report.
    pub fn add(
        &mut self,
        capture: &[u8],
        limit: Limit,
        row: &mut [Slot; SLOTS],
        buffer: &mut [u8],
    ) -> Result<(), Refused> {
        let buffer = buffer
            .get_mut(..receiver_buffer(limit.get()))
            .ok_or(Refusal::Unfit)?;
        let limit = limit.get() as u64;
        match calls::pito_report_add(&mut self.numbers, limit, row, buffer, capture) {
            Ok(_) => Ok(()),
            Err(Told { refusal, row }) => Err(match refusal {
                Refusal::RecordCut | Refusal::RecordLength => Refused::at(refusal, row.place),
                _ => refusal.into(),
            }),
        }
    }

    /// The costs of a stream.
    pub fn of(&self, stream: Stream) -> Costs {
        let place = match stream {
            Stream::Control => 0,
            Stream::Ota => 1,
            Stream::Alexa => 2,
        };
        let mut numbers = self.numbers.chunks_exact(REPORT_ROW / 3).skip(place);
        match numbers.next() {
            Some(&[firsts, finished, replaced, dropped, left_open, payload, bytes]) => Costs {
                firsts,
                finished,
                replaced,
                dropped,
                left_open,
                payload,
                bytes,
            },
            _ => Costs::default(),
        }
    }
}
